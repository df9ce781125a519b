//! traces FAMILY SEED COUNT DIRECTORY: writes the texts of a family's first cases as FAMILY-CASE.txt, and beside each what the program at
//! the bench has to print for it, as FAMILY-CASE.out. FAMILY may be `all`. Without words: lists the families.
//!
//! traces sessions SEED COUNT DIRECTORY: writes sessions instead: a text as session-CASE.txt, the model's number and the session's words,
//! one to a line, as session-CASE.words, and what `tell session` says to them as session-CASE.out.

use second::bench;
use second::chance::Chance;
use second::families::{family, text, Family, FAMILIES};
use second::reader::read_lines;
use second::script::{answers, drawn};
use second::trace::MODELS;
use second::verdict::MOST_STEPS;
use std::fs;
use std::io;
use std::path::Path;
use std::process::ExitCode;

fn main() -> ExitCode {
    let words: Vec<String> = std::env::args().skip(1).collect();
    let words: Vec<&str> = words.iter().map(String::as_str).collect();
    match words.as_slice() {
        [] => {
            FAMILIES.iter().for_each(|family| println!("{:12} {}", family.name, family.what));
            ExitCode::SUCCESS
        }
        ["sessions", seed, count, directory] => match (seed.parse(), count.parse()) {
            (Ok(seed), Ok(count)) => ended(write_sessions(seed, count, Path::new(directory))),
            _ => usage(),
        },
        [name, seed, count, directory] => match (chosen(name), seed.parse(), count.parse()) {
            (Some(families), Ok(seed), Ok(count)) => {
                ended(families.iter().try_for_each(|family| write_family(family, seed, count, Path::new(directory))))
            }
            _ => usage(),
        },
        _ => usage(),
    }
}

fn usage() -> ExitCode {
    eprintln!("usage: traces [FAMILY|all|sessions SEED COUNT DIRECTORY]");
    ExitCode::from(2)
}

fn chosen(name: &str) -> Option<Vec<&'static Family>> {
    if name == "all" {
        Some(FAMILIES.iter().collect())
    } else {
        family(name).map(|family| vec![family])
    }
}

fn ended(written: io::Result<()>) -> ExitCode {
    match written {
        Ok(()) => ExitCode::SUCCESS,
        Err(error) => {
            eprintln!("traces: {error}");
            ExitCode::FAILURE
        }
    }
}

fn write_family(family: &Family, seed: u64, count: u64, directory: &Path) -> io::Result<()> {
    fs::create_dir_all(directory)?;
    for case in 0..count {
        let text = text(family, seed, case);
        let output = bench::output(&text, MOST_STEPS);
        fs::write(directory.join(format!("{}-{case}.txt", family.name)), text)?;
        fs::write(directory.join(format!("{}-{case}.out", family.name)), output)?;
    }
    Ok(())
}

/// Families whose traces leave something to suppose.
const SESSION_FAMILIES: [&str; 6] = ["stated", "knot", "dense", "weak", "rounds", "tso"];

fn write_sessions(seed: u64, count: u64, directory: &Path) -> io::Result<()> {
    fs::create_dir_all(directory)?;
    for case in 0..count {
        let mut chance = Chance::of_case(seed, case);
        let name: &str = SESSION_FAMILIES[chance.below(SESSION_FAMILIES.len())];
        let family = family(name).expect("a family");
        let text = text(family, seed, case);
        let trace = read_lines(&text).expect("these families' lines are good");
        let model = if chance.percent(80) { chance.between(1, MODELS) } else { *chance.of(&[0, MODELS + 1]) } as u64;
        let words = drawn(&mut chance, &trace);
        let words: Vec<&str> = words.iter().map(String::as_str).collect();
        let answers = answers(&trace, model, &words).expect("drawn words are of the form");
        fs::write(directory.join(format!("session-{case}.txt")), text)?;
        fs::write(directory.join(format!("session-{case}.words")), format!("{model}\n{}\n", words.join("\n")))?;
        fs::write(directory.join(format!("session-{case}.out")), answers)?;
    }
    Ok(())
}
