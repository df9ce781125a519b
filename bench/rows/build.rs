//! Makes Rust of crates/rows: its code is Rust once the lines of the proof are taken out. What is timed is then the product's own text, for as many
//! records as are wanted; no entry of the library reaches it.

use std::{env, fs, path::PathBuf};

const SOURCE: &str = "../../crates/rows/src/lib.rt";

/// The lines that only the checker reads.
const PROOF: [&str; 5] = ["#![tactic(", "ghost use ", "requires ", "ensures ", "decreases "];

fn main() {
    println!("cargo:rerun-if-changed={SOURCE}");
    let text = fs::read_to_string(SOURCE).expect("crates/rows/src/lib.rt is there");
    let code = |line: &&str| !PROOF.iter().any(|word| line.trim_start().starts_with(word));
    let lines = text.lines().filter(code).map(|line| match line.strip_prefix("pub const WORDS: usize = ") {
        Some(_) => "pub const WORDS: usize = trace::RECORDS / WIDTH;",
        None => line,
    });
    let made = PathBuf::from(env::var("OUT_DIR").expect("cargo says where")).join("proved.rs");
    fs::write(made, lines.collect::<Vec<_>>().join("\n")).expect("the code can be written");
}
