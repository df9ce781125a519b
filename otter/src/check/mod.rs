//! `otter check`: many traces, a line each, and a summary.

mod alike;
mod expected;
pub mod tally;

use crate::files::Files;
use crate::judged::{Judged, State};
use crate::memory::Memory;
use crate::spread::Spread;
use crate::status::{self, Done};
use alike::Alike;
use expected::Expected;
use std::io::{self, Write};
use std::path::{Path, PathBuf};
use std::time::Instant;
use tally::Tally;

/// Check many traces: a line each in the order given, then a summary
///
/// Answers go to standard output and are the same bytes whatever the number of cores; progress and the summary with its seconds go to standard error.
#[derive(clap::Args)]
#[command(after_help = status::HELP)]
pub struct Options {
    #[command(flatten)]
    files: Files,
    /// The model that the memory promises; more than one, with commas between: a trace is kept where it has an order under each
    #[arg(short, long, value_enum, value_delimiter = ',', default_value = "tso", value_name = "MODEL,..")]
    model: Vec<Memory>,
    /// Undecided where the plain search makes more than N steps
    #[arg(long, value_name = "N")]
    steps: Option<u64>,
    /// Only traces that are not kept
    #[arg(short, long)]
    faults: bool,
    /// With the numbers of orders and circles
    #[arg(short, long)]
    long: bool,
    /// One JSON object to a line, each trace; the last line is the summary, so that a run that did not end shows
    #[arg(long, conflicts_with_all = ["long", "group"])]
    json: bool,
    /// Faults alike (same test program, same verdicts by the same records and rules) as one line behind the others: how many, and the first of them
    #[arg(short, long)]
    group: bool,
    /// Compare with a night stored by --json: a line for each trace that became worse or better, is new or is gone; the status is 0 where none is
    /// worse
    #[arg(long, value_name = "NIGHT", conflicts_with_all = ["long", "group", "faults", "json"])]
    expect: Option<PathBuf>,
    /// Faults are results: status 0 for them too (GNU parallel, Slurm and make take any other for a failed job)
    #[arg(long)]
    exit_zero: bool,
    #[command(flatten)]
    spread: Spread,
}

/// Where the lines of a run go: out as they come, to those alike, or beside an earlier night.
struct Lines<'a> {
    options: &'a Options,
    tally: Tally,
    alike: Alike,
    expected: Option<Expected>,
}

impl Lines<'_> {
    fn take(&mut self, path: &Path, judged: &Judged, text: &[u8]) -> io::Result<()> {
        self.tally.count(judged);
        let state = judged.state();
        let mut out = io::stdout().lock();
        if let Some(expected) = &mut self.expected {
            return expected.compare(path, judged, &mut out);
        }
        if self.options.faults && state == State::Kept {
            return Ok(());
        }
        if self.options.json {
            return writeln!(out, "{}", judged.json(path));
        }
        if self.options.group && state == State::Faulty {
            self.alike.take(path, judged, text);
            return Ok(());
        }
        writeln!(out, "{}: {}", path.display(), judged.words(self.options.long))
    }

    /// What stands behind the last trace, and the status of the run.
    fn end(mut self) -> io::Result<u8> {
        let mut out = io::stdout().lock();
        if let Some(expected) = &mut self.expected {
            return expected.end(&mut out);
        }
        self.alike.write(&mut out)?;
        if self.options.json {
            writeln!(out, "{}", self.tally.json())?;
        }
        Ok(self.tally.status())
    }
}

pub fn check(options: &Options) -> Done {
    let mut models = options.model.clone();
    models.dedup();
    let expected = options.expect.as_ref().map(|night| Expected::of(night, &models)).transpose()?;
    let files = options.files.found()?;
    let begun = Instant::now();
    let mut lines = Lines { options, tally: Tally::of(&models), alike: Alike::default(), expected };
    options.spread.over(
        &files,
        |path| Judged::file(path, &models, options.steps),
        |path, (judged, text)| lines.take(path, &judged, &text),
    )?;
    if !options.spread.quiet {
        let words = lines.tally.words(begun.elapsed().as_secs_f64());
        let status = lines.end()?;
        eprintln!("{words}");
        return Ok(eased(status, options.exit_zero));
    }
    Ok(eased(lines.end()?, options.exit_zero))
}

/// With --exit-zero faults are no failure.
pub fn eased(status: u8, exit_zero: bool) -> u8 {
    match status {
        status::FAULTY if exit_zero => status::KEPT,
        status => status,
    }
}
