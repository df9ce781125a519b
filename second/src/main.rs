//! second [STEPS] < TEXT: what the program at the bench has to print for this text. Where the search uses up its steps, a line says
//! `not known` and the exit status is 3.

use second::bench;
use second::report::NOT_KNOWN;
use second::verdict::MOST_STEPS;
use std::io::{self, Write};
use std::process::ExitCode;

fn main() -> io::Result<ExitCode> {
    let most_steps = match std::env::args().nth(1).map(|word| word.parse()) {
        None => MOST_STEPS,
        Some(Ok(steps)) => steps,
        Some(Err(_)) => {
            eprintln!("usage: second [STEPS] < TEXT");
            return Ok(ExitCode::from(2));
        }
    };
    let output = bench::output(&bench::standard_input()?, most_steps);
    io::stdout().write_all(output.as_bytes())?;
    Ok(if output.contains(NOT_KNOWN) { ExitCode::from(3) } else { ExitCode::SUCCESS })
}
