//! `otter paper`: why a trace has no order, as the list of reasons that the library writes and its small reader accepts.

use crate::input;
use crate::judged::listed;
use crate::memory::Memory;
use crate::status::{self, Done};
use std::fs;
use std::io::{self, Write};
use std::path::{Path, PathBuf};
use wheelotter::Paper;

/// How many numbers a list may have here: four million, two bytes each.
const ROOM: usize = 4 << 20;

/// The rule of an entry that splits its branch; 0 closes it, the others are the rules of an edge.
const SPLIT: u16 = 8;
const CIRCLE: u16 = 0;

/// Write why a trace has no order, entry by entry, or have the small reader read such a list
///
/// docs/PAPERS.md has the layout. An edge comes with its rule and the entries that it rests on, a split with both its sides, and every branch ends in a circle.
#[derive(clap::Args)]
#[command(after_help = status::HELP)]
pub struct Options {
    /// The trace; - is standard input
    file: PathBuf,
    /// The model that the memory promises
    #[arg(short, long, value_enum, default_value = "tso")]
    model: Memory,
    /// Write the numbers of the list, an entry to a line, instead of words
    #[arg(long, conflicts_with = "check")]
    numbers: bool,
    /// Have the small reader read the list in PAPER, decimal numbers, instead of writing one: status 1 where it is accepted, 2 where it is not
    #[arg(long, value_name = "PAPER")]
    check: Option<PathBuf>,
}

/// An entry of a list, with its number in its branch; a circle has that of the next one.
#[derive(Clone, Debug, PartialEq, Eq)]
pub struct Entry {
    pub number: usize,
    pub rule: u16,
    pub x: usize,
    pub y: usize,
    pub rests: Vec<usize>,
}

/// What a list says, in its order.
#[derive(Clone, Debug, PartialEq, Eq)]
pub enum Line {
    /// An edge by a rule.
    Edge(Entry),
    /// Two operations, of which the first is before the second in what follows.
    Split(Entry),
    /// A circle, which closes the branch.
    Circle(Entry),
    /// The other side of a split begins: number, and the two the other way round.
    Other(Entry),
}

/// The list for a trace that the library took; None where there is nothing to show.
pub fn written(text: &str, memory: Memory) -> Result<Option<Vec<u16>>, String> {
    match wheelotter::paper(text.as_bytes(), memory.model(), ROOM).expect("a text that the library took") {
        Paper::Nothing => Ok(None),
        Paper::TooLong => Err(format!("its paper has more than {ROOM} numbers")),
        Paper::Shown(list) => Ok(Some(list)),
    }
}

/// The entries of a list as the library lays them: rule, x, y, how many it rests on, and these.
fn entries(list: &[u16]) -> Vec<Entry> {
    let mut found = Vec::new();
    let mut left = list;
    while let [rule, x, y, count, behind @ ..] = left {
        let (rests, rest) = behind.split_at(usize::from(*count));
        let rests = rests.iter().map(|number| usize::from(*number)).collect();
        found.push(Entry { number: 0, rule: *rule, x: usize::from(*x), y: usize::from(*y), rests });
        left = rest;
    }
    found
}

/// The entries with their numbers, and where a circle closes one side of a split the beginning of its other side.
pub fn lines(list: &[u16]) -> Vec<Line> {
    let mut lines = Vec::new();
    let mut open: Vec<Entry> = Vec::new();
    let mut next = 0;
    for entry in entries(list) {
        let entry = Entry { number: next, ..entry };
        next += 1;
        match entry.rule {
            SPLIT => {
                open.push(entry.clone());
                lines.push(Line::Split(entry));
            }
            CIRCLE => {
                lines.push(Line::Circle(entry));
                if let Some(split) = open.pop() {
                    next = split.number + 1;
                    lines.push(Line::Other(Entry { x: split.y, y: split.x, ..split }));
                }
            }
            _ => lines.push(Line::Edge(entry)),
        }
    }
    lines
}

impl Line {
    /// A line of the list in words.
    fn words(&self) -> String {
        match self {
            Line::Edge(Entry { number, rule, x, y, rests }) if rests.is_empty() => format!("{number}: {x} before {y} by rule {rule}"),
            Line::Edge(Entry { number, rule, x, y, rests }) => format!("{number}: {x} before {y} by rule {rule}, from{}", listed(rests)),
            Line::Split(Entry { number, x, y, .. }) => format!("{number}: split, {x} before {y}"),
            Line::Other(Entry { number, x, y, .. }) => format!("{number}: other side, {x} before {y}"),
            Line::Circle(Entry { rests, .. }) => format!("circle{}", listed(rests)),
        }
    }
}

/// The decimal numbers of a file.
fn numbers(path: &Path) -> Result<Vec<u16>, String> {
    let text = fs::read_to_string(path).map_err(|error| format!("{}: unreadable: {error}", path.display()))?;
    let number = |word: &str| word.parse().map_err(|_| format!("{}: no list of numbers: {word}", path.display()));
    text.split_whitespace().map(number).collect()
}

/// What the small reader says of a list in a file.
fn check(text: &str, memory: Memory, path: &Path) -> Done {
    let accepted = wheelotter::accepts(text.as_bytes(), memory.model(), &numbers(path)?).expect("a text that the library took");
    println!("{}: {}", memory.name(), if accepted { "accepted, so there is no order" } else { "not accepted" });
    Ok(if accepted { status::FAULTY } else { status::UNJUDGED })
}

pub fn paper(options: &Options) -> Done {
    let text = input::trace(&options.file)?;
    if let Some(path) = &options.check {
        return check(&text, options.model, path);
    }
    let told = written(&text, options.model).map_err(|error| format!("{}: {error}", options.file.display()))?;
    let Some(list) = told else {
        eprintln!("{}: {}: nothing to show", options.file.display(), options.model.name());
        return Ok(crate::explain::Story::of(&text, options.model).status());
    };
    let mut out = io::stdout().lock();
    if options.numbers {
        for entry in entries(&list) {
            writeln!(out, "{} {} {} {}{}", entry.rule, entry.x, entry.y, entry.rests.len(), listed(&entry.rests))?;
        }
    } else {
        writeln!(out, "{}", options.model.name())?;
        for line in lines(&list) {
            writeln!(out, "{}", line.words())?;
        }
    }
    Ok(status::FAULTY)
}

#[cfg(test)]
mod tests {
    use super::lines;

    /// A split closed on both sides: numbers go on from the split, and a circle has none.
    #[test]
    fn both_sides_are_numbered() {
        let list = [8, 0, 2, 0, 1, 2, 3, 0, 7, 3, 0, 1, 0, 0, 2, 2, 2, 1, 2, 4, 0, 1, 0, 0, 2, 2, 2, 0, 1];
        let words: Vec<String> = lines(&list).iter().map(|line| line.words()).collect();
        let wanted = [
            "0: split, 0 before 2",
            "1: 2 before 3 by rule 1",
            "2: 3 before 0 by rule 7, from 0",
            "circle 1 2",
            "0: other side, 2 before 0",
            "1: 0 before 1 by rule 4",
            "circle 0 1",
        ];
        assert_eq!(words, wanted);
    }
}
