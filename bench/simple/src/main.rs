//! Reads a text from standard input and prints a line for each model, as the program at the bench does.
//!
//!     simple [RECORDS [LIMIT]]     at most so many records and steps; 256 and a million unless said otherwise

use simple::models::MODELS;
use simple::{reader, verdict, Bools, Refusal};
use std::io::Read;

fn main() -> std::io::Result<()> {
    let number = |i: usize, other: u64| std::env::args().nth(i).and_then(|word| word.parse().ok()).unwrap_or(other);
    let mut text = Vec::new();
    std::io::stdin().read_to_end(&mut text)?;
    match reader::read(&text, number(1, 256) as usize) {
        Ok(records) => {
            for model in MODELS {
                println!("{}: {}", model.name(), verdict::<Bools>(&records, model, number(2, 1_000_000)).0);
            }
        }
        Err(Refusal { number, line }) => println!("refused {number} line {line}"),
    }
    Ok(())
}
