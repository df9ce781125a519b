//! `otter shrink`: a faulty trace cut down to what its fault needs.

use crate::input;
use crate::judged::listed;
use crate::memory::Memory;
use crate::show::write;
use crate::status::{self, Done};
use serde_json::json;
use std::path::PathBuf;
use wheelotter::Smaller;

/// Cut a faulty trace down: what is left has no order, and without any of its records it has one
///
/// What is left may lack a core, and would be turned back as 22: the cores are numbered without a gap, in their order, and the map tells what they were.
#[derive(clap::Args)]
#[command(after_help = status::HELP)]
pub struct Options {
    /// The trace; - is standard input
    file: PathBuf,
    /// The model that the memory promises
    #[arg(short, long, value_enum, default_value = "tso")]
    model: Memory,
    /// Write the smaller trace to OUT
    #[arg(short, long, value_name = "OUT", default_value = "-")]
    output: PathBuf,
    /// Write the map back to OUT as JSON: the old number of each record and of each core
    #[arg(long, value_name = "OUT")]
    map: Option<PathBuf>,
    /// Leave the cores' numbers as they were
    #[arg(long)]
    keep_cores: bool,
}

/// The core of a line; None of an init line.
fn core_of(line: &str) -> Option<usize> {
    line.split(':').next()?.parse().ok()
}

/// The cores that a text has, rising.
fn cores_of(text: &str) -> Vec<usize> {
    let mut cores: Vec<usize> = text.lines().filter_map(core_of).collect();
    cores.sort();
    cores.dedup();
    cores
}

/// The same text with its cores numbered by their place in a list.
fn renumbered(text: &str, cores: &[usize]) -> String {
    let line = |line: &str| match core_of(line).and_then(|core| cores.iter().position(|old| *old == core)) {
        Some(new) => format!("{new}{}\n", &line[line.find(':').expect("it has a core")..]),
        None => format!("{line}\n"),
    };
    text.lines().map(line).collect()
}

/// What is left, with the numbers that its records and cores had.
fn cut(options: &Options, all: usize, olds: &[u16], text: &str) -> Result<(), Box<dyn std::error::Error>> {
    let old = cores_of(text);
    let cores = if options.keep_cores { (0..=old.last().copied().unwrap_or(0)).collect() } else { old };
    write(&options.output, renumbered(text, &cores).as_bytes())?;
    if let Some(out) = &options.map {
        write(out, format!("{}\n", json!({"records": olds, "cores": cores})).as_bytes())?;
    }
    eprintln!("kept{} of {all} records", listed(olds));
    let moved = cores.iter().enumerate().filter(|(new, old)| new != *old);
    moved.for_each(|(new, old)| eprintln!("core {old} is core {new} here"));
    Ok(())
}

pub fn shrink(options: &Options) -> Done {
    let text = input::trace(&options.file)?;
    let all = crate::records::records(&text).len();
    match wheelotter::smaller(text.as_bytes(), options.model.model()).expect("a text that the library took") {
        Smaller::NoSource(load) => Err(format!("{}: 11 (record {load} read what nobody wrote)", options.file.display()).into()),
        Smaller::NothingWrong => {
            eprintln!("{}: {} order: nothing wrong", options.file.display(), options.model.name());
            Ok(status::KEPT)
        }
        Smaller::Cut { olds, text } => {
            cut(options, all, &olds, &String::from_utf8_lossy(&text))?;
            Ok(status::FAULTY)
        }
    }
}

#[cfg(test)]
mod tests {
    use super::{cores_of, renumbered};

    #[test]
    fn cores_close_up() {
        let text = "init: M[1] := 5\n0: M[1] == 5\n3: { M[1] == 5; M[1] := 2 }\n7: sync\n";
        assert_eq!(cores_of(text), [0, 3, 7]);
        assert_eq!(renumbered(text, &[0, 3, 7]), "init: M[1] := 5\n0: M[1] == 5\n1: { M[1] == 5; M[1] := 2 }\n2: sync\n");
    }
}
