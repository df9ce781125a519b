//! `otter explain`: why a trace has no order, in sentences.

use crate::input;
use crate::judged::{listed, Found, Judged};
use crate::memory::Memory;
use crate::paper::{self, Entry, Line};
use crate::records::{records, Record};
use crate::status::{self, Done};
use std::io::{self, Write};
use std::path::PathBuf;
use wheelotter::Verdict;

/// Say in sentences why a trace has no order under a model
///
/// The sentences are those of the paper that the library writes, entry by entry: each edge by its rule, the records that it joins and the edges that it rests
/// on; where the rules alone close no circle, two cases.
#[derive(clap::Args)]
#[command(after_help = status::HELP)]
pub struct Options {
    /// The trace; - is standard input
    file: PathBuf,
    /// The model that the memory promises
    #[arg(short, long, value_enum, default_value = "tso")]
    model: Memory,
}

/// What is said where the paper does not fit.
const TOO_LONG: &str = "The paper that shows it is too long to be told.";

/// A fault as people talk about it: the trace, the model, and what the library found.
pub struct Story {
    pub records: Vec<Record>,
    pub memory: Memory,
    pub verdict: Verdict,
    /// The paper; none where there is nothing to show, or where it is too long to be told.
    reasons: Vec<Line>,
}

impl Story {
    /// The library's verdict on a text that it took.
    pub fn of(text: &str, memory: Memory) -> Story {
        let verdict = wheelotter::verdict(text.as_bytes(), memory.model()).expect("a text that the library took");
        let list = paper::written(text, memory).unwrap_or_default().unwrap_or_default();
        Story { records: records(text), memory, verdict, reasons: paper::lines(&list) }
    }

    pub fn status(&self) -> u8 {
        match self.verdict {
            Verdict::Order(_) => status::KEPT,
            _ => status::FAULTY,
        }
    }

    /// The model and the verdict with its numbers, as check --long writes them.
    pub fn title(&self) -> String {
        Judged::Found(vec![(self.memory, Found::Told(self.verdict.clone()))]).words(true)
    }

    /// The edges of the circle with their rules; none of any other verdict.
    pub fn edges(&self) -> Vec<(usize, usize, u8)> {
        match &self.verdict {
            Verdict::Circle { operations, rules } => {
                let next = operations.iter().cycle().skip(1);
                operations.iter().zip(next).zip(rules).map(|((x, y), rule)| (usize::from(*x), usize::from(*y), *rule)).collect()
            }
            _ => Vec::new(),
        }
    }

    /// The records that the verdict names as at fault.
    pub fn named(&self) -> Vec<usize> {
        match &self.verdict {
            Verdict::NoSource(load) => vec![usize::from(*load)],
            _ => {
                let mut named: Vec<usize> = self.edges().into_iter().map(|(x, _, _)| x).collect();
                named.sort();
                named
            }
        }
    }

    /// The whole explanation, a sentence to a line.
    pub fn sentences(&self) -> Vec<String> {
        let model = self.memory.name();
        match &self.verdict {
            Verdict::Order(_) => vec![
                format!("The memory kept {model}: there is an order in which every load reads what it read."),
                format!("{}.", self.title()),
            ],
            Verdict::NoSource(load) => self.no_source(usize::from(*load)),
            Verdict::NoneLeft if self.reasons.is_empty() => {
                vec![format!("Under {model} every order was ruled out, and yet the rules alone close no circle."), TOO_LONG.to_string()]
            }
            Verdict::NoneLeft => self.cases(),
            Verdict::Circle { .. } => self.circle(),
        }
    }

    fn no_source(&self, load: usize) -> Vec<String> {
        let record = &self.records[load];
        let value = record.read.expect("who has no source reads");
        vec![
            format!("Under {} there is no order: record {load} of core {}, {record}, read {value}.", self.memory.name(), record.core),
            format!("No other record writes {value} to M[{}], and it is not what that address began with.", record.address),
        ]
    }

    /// A record to a line.
    fn lines(&self, named: &[usize]) -> Vec<String> {
        named.iter().map(|x| format!("  {x:>3}  core {}  {}", self.records[*x].core, self.records[*x])).collect()
    }

    /// The records that the paper names, but for some.
    fn others(&self, but: &[usize]) -> Vec<usize> {
        let entries = self.reasons.iter().map(|(Line::Edge(entry) | Line::Split(entry) | Line::Circle(entry) | Line::Other(entry))| entry);
        let mut named: Vec<usize> = entries.flat_map(|entry| [entry.x, entry.y]).filter(|x| !but.contains(x)).collect();
        named.sort();
        named.dedup();
        named
    }

    fn circle(&self) -> Vec<String> {
        let named = self.named();
        let mut lines = vec![format!("Under {} these {} operations cannot be put into any order:", self.memory.name(), named.len())];
        lines.extend(self.lines(&named));
        let others = self.others(&named);
        if !others.is_empty() {
            lines.push("Their reasons name these too:".to_string());
            lines.extend(self.lines(&others));
        }
        if self.reasons.is_empty() {
            lines.push(TOO_LONG.to_string());
        }
        lines.extend(self.told());
        lines
    }

    /// Where the rules alone close no circle: each split with its two sides.
    fn cases(&self) -> Vec<String> {
        let named = self.others(&[]);
        let first = format!(
            "Under {} every order was ruled out, and yet the rules alone close no circle. These {} operations show it:",
            self.memory.name(),
            named.len()
        );
        let mut lines = vec![first];
        lines.extend(self.lines(&named));
        lines.extend(self.told());
        lines.push("So there is no order.".to_string());
        lines
    }

    /// The paper, a sentence to an entry. `branch` has the edges that the open branch names, by their numbers.
    fn told(&self) -> Vec<String> {
        let mut branch: Vec<(usize, usize)> = Vec::new();
        let mut told = Vec::new();
        for line in &self.reasons {
            match line {
                Line::Edge(entry) => {
                    told.push(format!("{} is before {}: {} (rule {}).", entry.x, entry.y, self.why(entry, &branch), entry.rule))
                }
                Line::Split(entry) => told.push(format!("Suppose that {} is before {}.", entry.x, entry.y)),
                Line::Circle(entry) => told.push(format!("So {0} would be before {0}.", entry.x)),
                Line::Other(entry) => told.push(format!("So {} is before {}.", entry.x, entry.y)),
            }
            if let Line::Edge(entry) | Line::Split(entry) | Line::Other(entry) = line {
                branch.truncate(entry.number);
                branch.push((entry.x, entry.y));
            }
        }
        told
    }

    /// Why x is before y: from the two records, and for rules 6 and 7 from the chain that the entry rests on.
    fn why(&self, entry: &Entry, branch: &[(usize, usize)]) -> String {
        let (x, y) = (entry.x, entry.y);
        let (first, second) = (&self.records[x], &self.records[y]);
        let (core, place, model) = (first.core, first.address, self.memory.name());
        let read = |record: &Record| record.read.expect("the rule is about a read");
        let written = |record: &Record| record.written.expect("the rule is about a write");
        let chain: Vec<(usize, usize)> = entry.rests.iter().map(|number| branch[*number]).collect();
        match entry.rule {
            1 => format!("both are of core {core}, and {model} keeps them in this order"),
            2 => format!("{y} read the {} that {x} wrote to M[{place}]", read(second)),
            3 => format!("core {core} wrote {} to M[{place}] itself and read the {} of {y} there later", written(first), written(second)),
            4 => format!("{x} read {}, with which M[{place}] began, and {y} wrote {} there", read(first), written(second)),
            5 => {
                format!("core {core} wrote {} to M[{place}] before, and yet {y} read {}, with which it began", written(first), read(second))
            }
            6 => format!(
                "{}, which read the {} that {y} wrote to M[{place}], and {x} wrote {} there",
                led(&chain),
                written(second),
                written(first)
            ),
            _ => format!(
                "{x} read the {} that {} wrote to M[{place}], and {}, which wrote {} there",
                read(first),
                chain[0].0,
                led(&chain),
                written(second)
            ),
        }
    }
}

/// A chain of edges in words, from its beginning to its end.
fn led(chain: &[(usize, usize)]) -> String {
    let (first, last) = (chain[0].0, chain[chain.len() - 1].1);
    let between: Vec<usize> = chain[1..].iter().map(|(x, _)| *x).collect();
    match between.is_empty() {
        true => format!("{first} is before {last}"),
        false => format!("{first} is by way of{} before {last}", listed(&between)),
    }
}

pub fn explain(options: &Options) -> Done {
    let story = Story::of(&input::trace(&options.file)?, options.model);
    let mut out = io::stdout().lock();
    for sentence in story.sentences() {
        writeln!(out, "{sentence}")?;
    }
    Ok(story.status())
}
