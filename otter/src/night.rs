//! `otter night`: many runs of a few test programs. Equal runs, told by their signatures, are judged once, and those that differ by their words, many of a program in one call.

use crate::files::Files;
use crate::input;
use crate::judged::{Found, Judged, State};
use crate::memory::Memory;
use crate::records::program;
use crate::spread::Spread;
use crate::status::{self, Done};
use std::collections::{BTreeMap, HashMap};
use std::io::{self, Write};
use std::path::{Path, PathBuf};

/// Count the runs of each test program by what they saw, and judge those that differ
///
/// A run is told by its program and by its signature, what its loads read packed into words; a run that reads what nobody wrote has none, and is judged by itself.
#[derive(clap::Args)]
#[command(after_help = status::HELP)]
pub struct Options {
    #[command(flatten)]
    files: Files,
    /// The model that the memory promises
    #[arg(short, long, value_enum, default_value = "tso")]
    model: Memory,
    /// Undecided where the plain search makes more than N steps
    #[arg(long, value_name = "N")]
    steps: Option<u64>,
    /// Faults are results: status 0 for them too
    #[arg(long)]
    exit_zero: bool,
    #[command(flatten)]
    spread: Spread,
}

/// How many runs of a program are judged in one call: what they share is worked out once for all of them, and yet every core has its part.
const TOGETHER: usize = 100;

/// What was read: the signature's words, or the whole text where it has none.
#[derive(Clone, PartialEq, Eq, Hash)]
enum Read {
    Words(Vec<u64>),
    Unlisted(Vec<u8>),
}

/// A test program, and what was read.
type Key = (Vec<u8>, Read);

/// Runs that are equal: what they read, one text for them all, how many there are, and the first of them.
struct Runs {
    program: usize,
    read: Read,
    text: Vec<u8>,
    count: u64,
    first: PathBuf,
}

/// What a file tells before anything is judged; an Err says why it cannot be.
fn told(path: &Path) -> Result<(Key, Vec<u8>), String> {
    let text = input::trace(path)?.into_bytes();
    let read = wheelotter::signature(&text).map(Read::Words).unwrap_or_else(|_| Read::Unlisted(text.clone()));
    Ok(((program(&text), read), text))
}

/// All runs of a night, by program in the order in which they came.
#[derive(Default)]
struct Night {
    programs: HashMap<Vec<u8>, usize>,
    names: Vec<PathBuf>,
    places: HashMap<Key, usize>,
    runs: Vec<Runs>,
    wrong: Vec<String>,
}

impl Night {
    fn take(&mut self, path: &Path, told: Result<(Key, Vec<u8>), String>) {
        let (key, text) = match told {
            Ok(told) => told,
            Err(wrong) => return self.wrong.push(wrong),
        };
        let program = *self.programs.entry(key.0.clone()).or_insert(self.names.len());
        if program == self.names.len() {
            self.names.push(path.to_path_buf());
        }
        let read = key.1.clone();
        let place = *self.places.entry(key).or_insert(self.runs.len());
        match self.runs.get_mut(place) {
            Some(runs) => runs.count += 1,
            None => self.runs.push(Runs { program, read, text, count: 1, first: path.to_path_buf() }),
        }
    }

    /// The places of what is judged in one call: runs of one program that have words, or one run by itself.
    fn blocks(&self, alone: bool) -> Vec<Vec<usize>> {
        let mut blocks: Vec<Vec<usize>> = Vec::new();
        let mut open: HashMap<usize, usize> = HashMap::new();
        for (place, runs) in self.runs.iter().enumerate() {
            let last = open.get(&runs.program).copied().filter(|&block| blocks[block].len() < TOGETHER);
            match (&runs.read, last) {
                (Read::Words(_), Some(block)) if !alone => blocks[block].push(place),
                (Read::Words(_), _) if !alone => {
                    open.insert(runs.program, blocks.len());
                    blocks.push(vec![place]);
                }
                _ => blocks.push(vec![place]),
            }
        }
        blocks
    }

    /// A block's verdicts: by words, or where it has none, or its steps are counted, by its text.
    fn judge(&self, block: &[usize], memory: Memory, steps: Option<u64>) -> Vec<Judged> {
        let own: Vec<&Runs> = block.iter().map(|&place| &self.runs[place]).collect();
        let words: Option<Vec<&[u64]>> = own
            .iter()
            .map(|runs| match &runs.read {
                Read::Words(words) => Some(words.as_slice()),
                Read::Unlisted(_) => None,
            })
            .collect();
        let told = words.filter(|_| steps.is_none()).and_then(|words| wheelotter::night(&own[0].text, memory.model(), &words.concat(), own.len()).ok());
        match told {
            Some(verdicts) => verdicts.into_iter().map(|verdict| Judged::Found(vec![(memory, Found::Told(verdict))])).collect(),
            None => own.iter().map(|runs| Judged::text(&runs.text, &[memory], steps)).collect(),
        }
    }

    /// A program's line, and below it what was seen, the most frequent first.
    fn write(&self, memory: Memory, judged: &[Judged], out: &mut impl Write) -> io::Result<()> {
        for (program, name) in self.names.iter().enumerate() {
            let own: Vec<(&Runs, &Judged)> = self.runs.iter().zip(judged).filter(|(runs, _)| runs.program == program).collect();
            let all: u64 = own.iter().map(|(runs, _)| runs.count).sum();
            let kept: u64 = own.iter().filter(|(_, judged)| judged.state() == State::Kept).map(|(runs, _)| runs.count).sum();
            writeln!(out, "{}: {all} runs, {} different; {}: {kept} kept", name.display(), own.len(), memory.name())?;
            for (words, count, first) in histogram(&own) {
                writeln!(out, "{count:>6} times {words}, first in {}", first.display())?;
            }
        }
        self.wrong.iter().try_for_each(|wrong| writeln!(out, "{wrong}"))
    }
}

/// The verdicts that are no order, with how many runs had each and the first of these.
fn histogram<'a>(own: &[(&'a Runs, &Judged)]) -> Vec<(String, u64, &'a Path)> {
    let mut seen: Vec<(String, u64, &Path)> = Vec::new();
    for (runs, judged) in own.iter().filter(|(_, judged)| judged.state() != State::Kept) {
        let words = judged.words(true);
        match seen.iter_mut().find(|(other, _, _)| *other == words) {
            Some((_, count, _)) => *count += runs.count,
            None => seen.push((words, runs.count, &runs.first)),
        }
    }
    seen.sort_by_key(|(_, count, _)| std::cmp::Reverse(*count));
    seen
}

/// As check ends.
fn status(night: &Night, judged: &[Judged]) -> u8 {
    let some = |state: State| judged.iter().any(|judged| judged.state() == state);
    if !night.wrong.is_empty() || some(State::Undecided) {
        return status::UNJUDGED;
    }
    if some(State::Faulty) {
        return status::FAULTY;
    }
    status::KEPT
}

pub fn night(options: &Options) -> Done {
    let files = options.files.found()?;
    let mut night = Night::default();
    let take = |path: &PathBuf, told| -> io::Result<()> {
        night.take(path, told);
        Ok(())
    };
    options.spread.over(&files, |path| told(path), take)?;
    let mut told = BTreeMap::new();
    let judge = |block: &Vec<usize>| night.judge(block, options.model, options.steps);
    options.spread.over(&night.blocks(options.steps.is_some()), judge, |block, judged| {
        told.extend(block.iter().copied().zip(judged));
        Ok(())
    })?;
    let judged: Vec<Judged> = told.into_values().collect();
    night.write(options.model, &judged, &mut io::stdout().lock())?;
    Ok(crate::check::eased(status(&night, &judged), options.exit_zero))
}
