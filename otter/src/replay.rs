//! `otter replay`: an order at work on the plain machine, or steps of one's own.

use crate::input;
use crate::judged::listed;
use crate::memory::Memory;
use crate::records::{records, Record};
use crate::status::{self, Done};
use std::io::{self, Write};
use std::path::{Path, PathBuf};
use wheelotter::{Answer, Ran, Verdict};

/// Run a trace on a plain machine: the steps of its order, or your own
///
/// Under SC all cores work on one memory; under TSO each has a store buffer, first in, first out. PSO and WMO have no machine.
#[derive(clap::Args)]
#[command(after_help = status::HELP)]
pub struct Options {
    /// The trace; - is standard input
    file: PathBuf,
    /// SC, TSO or both
    #[arg(short, long, value_enum, value_delimiter = ',', default_value = "sc,tso", value_name = "MODEL,..")]
    model: Vec<Memory>,
    /// Run these steps instead: numbers with spaces between; below 8 that core runs its next record, 8 more and it empties its oldest entry
    #[arg(long, value_name = "FILE")]
    by: Option<PathBuf>,
}

/// Beneath this a step runs a record of the core of its number; from here on it empties an entry of the core of 8 less.
const CORES: usize = 8;

/// What each step is about, in words, beside the machine: which records ran and which entries wait. The steps are the library's.
struct Watch<'a> {
    records: &'a [Record],
    memory: Memory,
    ran: Vec<bool>,
    waiting: Vec<usize>,
}

impl Watch<'_> {
    /// A step that the machine can do.
    fn step(&mut self, step: usize) -> String {
        if step >= CORES {
            return self.emptied(step - CORES);
        }
        let i = (0..self.records.len()).find(|i| self.records[*i].core == step && !self.ran[*i]).expect("the machine did this step");
        self.ran[i] = true;
        self.run(i)
    }

    fn emptied(&mut self, core: usize) -> String {
        let place = self.waiting.iter().position(|i| self.records[*i].core == core).expect("the machine did this step");
        let i = self.waiting.remove(place);
        format!("core {core} empties {}", self.records[i])
    }

    fn run(&mut self, i: usize) -> String {
        let record = &self.records[i];
        let (core, place) = (record.core, record.address);
        match (record.read, record.written) {
            (None, None) => format!("core {core} passes a fence"),
            (Some(read), Some(written)) => format!("core {core} swaps M[{place}], gets {read} from memory, stores {written}"),
            (Some(read), None) => {
                let own = self.waiting.iter().any(|w| self.records[*w].core == core && self.records[*w].address == place);
                format!("core {core} loads M[{place}], gets {read} from {}", if own { "its buffer" } else { "memory" })
            }
            (None, Some(_)) if self.memory == Memory::Tso => {
                self.waiting.push(i);
                format!("core {core} stores {record} into its buffer")
            }
            (None, Some(_)) => format!("core {core} stores {record}"),
        }
    }
}

/// One model: its line, and the steps below an order. Gives back the status.
fn replayed(text: &str, memory: Memory, out: &mut impl Write) -> Result<u8, Box<dyn std::error::Error>> {
    let model = memory.model();
    let Verdict::Order(order) = wheelotter::verdict(text.as_bytes(), model).expect("a text that the library took") else {
        writeln!(out, "{}", line_of(text, memory))?;
        return Ok(status::FAULTY);
    };
    let steps = wheelotter::steps(text.as_bytes(), model, &order).map_err(|answer| turned_back(memory, answer))?;
    writeln!(out, "{}: order{}", memory.name(), listed(&order))?;
    say(&records(text), memory, &steps, out)?;
    Ok(status::KEPT)
}

/// The line of the program at the bench.
fn line_of(text: &str, memory: Memory) -> String {
    let report = wheelotter::report(text.as_bytes());
    let begin = format!("{}:", memory.name());
    report.lines().find(|line| line.starts_with(&begin)).unwrap_or_default().to_string()
}

fn turned_back(memory: Memory, answer: Answer) -> String {
    format!("{}: {} ({})", memory.name(), answer as u8, crate::meaning::meaning(answer))
}

fn say(records: &[Record], memory: Memory, steps: &[u8], out: &mut impl Write) -> io::Result<()> {
    let mut watch = Watch { records, memory, ran: vec![false; records.len()], waiting: Vec::new() };
    for step in steps {
        writeln!(out, "{}", watch.step(usize::from(*step)))?;
    }
    Ok(())
}

/// The numbers in a file, which are bytes.
fn steps_in(path: &Path) -> Result<Vec<u8>, String> {
    let text = input::read(path).map_err(|error| format!("{}: unreadable: {error}", path.display()))?;
    let text = String::from_utf8_lossy(&text);
    text.split_whitespace().map(|word| word.parse().map_err(|_| format!("{}: {word:?} is no step", path.display()))).collect()
}

/// Steps of one's own: those that the machine did, and how it ended.
fn run(text: &str, memory: Memory, steps: &[u8], out: &mut impl Write) -> Result<u8, Box<dyn std::error::Error>> {
    let ran = wheelotter::run(text.as_bytes(), memory.model(), steps).map_err(|answer| turned_back(memory, answer))?;
    let done = if let Ran::Stuck(place) = ran { usize::from(place) } else { steps.len() };
    say(&records(text), memory, &steps[..done], out)?;
    let (words, status) = match ran {
        Ran::Stuck(place) => (format!("step {place}, {}: impossible (25)", steps[done]), status::FAULTY),
        Ran::Through => ("through: all records ran, and the buffers are empty".to_string(), status::KEPT),
        Ran::NotThrough => ("not through: records are left or entries wait".to_string(), status::FAULTY),
    };
    writeln!(out, "{}: {words}", memory.name())?;
    Ok(status)
}

pub fn replay(options: &Options) -> Done {
    let text = input::trace(&options.file)?;
    let steps = options.by.as_deref().map(steps_in).transpose()?;
    let mut out = io::stdout().lock();
    let mut worst = status::KEPT;
    for memory in &options.model {
        let status = match &steps {
            Some(steps) => run(&text, *memory, steps, &mut out)?,
            None => replayed(&text, *memory, &mut out)?,
        };
        worst = worst.max(status);
    }
    Ok(worst)
}
