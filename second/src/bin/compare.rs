//! compare [--seed N] [--seconds N | --cases N] [--family NAME].. [--steps N] [--patience SECONDS] [--threads N] -- PROGRAM [WORD..]
//!
//! Feeds the same texts to PROGRAM (on its standard input) and to this package's own reading of document 01, and compares the outputs
//! byte for byte. Each difference is printed with its text and both outputs. The very last line is `N passed, M failed`.
//! Without `-- PROGRAM` only this package runs, to see how fast it is.

use second::bench;
use second::families::{text, Family};
use second::orders;
use second::plan::{ended, missed, shown, Plan};
use second::reader;
use second::report::NOT_KNOWN;
use second::trace::Model;
use std::collections::BTreeMap;
use std::io::{self, Read, Write};
use std::process::{Command, ExitCode, Stdio};
use std::sync::Mutex;
use std::thread;
use std::time::{Duration, Instant};

const USAGE: &str = "usage: compare [--seed N] [--seconds N | --cases N] [--family NAME].. [--steps N] [--patience SECONDS] \
                     [--threads N] [-- PROGRAM [WORD..]]";

fn main() -> ExitCode {
    let Some(plan) = Plan::of(std::env::args().skip(1)) else {
        eprintln!("{USAGE}");
        return ExitCode::from(2);
    };
    let tally = Mutex::new(Tally::default());
    plan.each(|family, case| {
        let text = text(family, plan.seed, case);
        let wanted = bench::output(&text, plan.steps);
        let outcome = if plan.program.is_empty() { alone(&wanted) } else { compared(&plan, &text, &wanted) };
        tally.lock().expect("no worker panicked").note(&plan, family, case, &text, &wanted, outcome);
    });
    let tally = tally.into_inner().expect("no worker panicked");
    tally.print(&plan);
    ended(tally.passed(), tally.failed())
}

/// What came of one case. A case that is skipped counts neither as passed nor as failed, as long as few of its family are.
enum Outcome {
    Passed,
    /// This package does not know one of the lines; whatever could be compared was right.
    NotKnown,
    /// The program under test took longer than our patience.
    TooSlow,
    Failed {
        why: String,
        got: Vec<u8>,
    },
}

fn alone(wanted: &str) -> Outcome {
    if wanted.contains(NOT_KNOWN) {
        Outcome::NotKnown
    } else {
        Outcome::Passed
    }
}

fn compared(plan: &Plan, text: &[u8], wanted: &str) -> Outcome {
    match fed(plan, text) {
        Err(error) => Outcome::Failed { why: format!("cannot be run: {error}"), got: Vec::new() },
        Ok(None) => Outcome::TooSlow,
        Ok(Some(got)) if got == wanted.as_bytes() => alone(wanted),
        Ok(Some(got)) if wanted.contains(NOT_KNOWN) => halfway(text, wanted, got),
        Ok(Some(got)) => Outcome::Failed { why: "outputs differ".to_string(), got },
    }
}

/// Lines that this package knows are compared; where it does not know, an order that the program gives is held against the definition.
/// That it is the first order, or that none is left, stays untested: hence skipped.
fn halfway(text: &[u8], wanted: &str, got: Vec<u8>) -> Outcome {
    let told = String::from_utf8_lossy(&got).into_owned();
    let (wanted, lines): (Vec<&str>, Vec<&str>) = (wanted.split('\n').collect(), told.split('\n').collect());
    if wanted.len() != lines.len() {
        return Outcome::Failed { why: "another number of lines".to_string(), got };
    }
    for (place, (wanted, line)) in wanted.iter().zip(&lines).enumerate() {
        let fits = match Model::all().get(place) {
            Some(&model) if wanted.ends_with(NOT_KNOWN) => may_be(text, model, line),
            _ => wanted == line,
        };
        if !fits {
            return Outcome::Failed { why: format!("not a right line: {line}"), got };
        }
    }
    Outcome::NotKnown
}

fn may_be(text: &[u8], model: Model, line: &str) -> bool {
    if line == format!("{}: no order, none left", model.name()) {
        return true;
    }
    let Some(list) = line.strip_prefix(&format!("{}: order ", model.name())) else { return false };
    let numbers: Option<Vec<usize>> = list.split(' ').map(|number| number.parse().ok()).collect();
    match (reader::read(text), numbers) {
        (Ok(trace), Some(numbers)) => orders::judge(&trace, model, &numbers),
        _ => false,
    }
}

/// The output of the program under test; None if it did not end in time. Texts and outputs fit into a pipe, so writing and waiting
/// before reading cannot lock up.
fn fed(plan: &Plan, text: &[u8]) -> io::Result<Option<Vec<u8>>> {
    let mut child = Command::new(&plan.program[0])
        .args(&plan.program[1..])
        .stdin(Stdio::piped())
        .stdout(Stdio::piped())
        .stderr(Stdio::null())
        .spawn()?;
    let mut input = child.stdin.take().expect("piped");
    // A program that ends before it has read all of a long text is within its rights: it needs one byte past the bound and no more.
    let fed = input.write_all(text);
    drop(input);
    let deadline = Instant::now() + plan.patience;
    let status = loop {
        match child.try_wait()? {
            Some(status) => break status,
            None if Instant::now() >= deadline => {
                child.kill()?;
                child.wait()?;
                return Ok(None);
            }
            None => thread::sleep(Duration::from_micros(300)),
        }
    };
    let mut got = Vec::new();
    child.stdout.take().expect("piped").read_to_end(&mut got)?;
    match (fed, status.code()) {
        (Err(error), _) if error.kind() != io::ErrorKind::BrokenPipe => Err(error),
        (_, None) => Err(io::Error::other(format!("it was ended by a signal: {status}"))),
        _ => Ok(Some(got)),
    }
}

// ---- counting ----

#[derive(Default)]
struct Counts {
    passed: u64,
    failed: u64,
    not_known: u64,
    too_slow: u64,
    /// How often each kind of line was wanted, so that a family that tests nothing is seen.
    kinds: BTreeMap<String, u64>,
}

impl Counts {
    fn skipped(&self) -> u64 {
        self.not_known + self.too_slow
    }

    fn missed(&self) -> u64 {
        missed(self.skipped(), self.passed + self.failed)
    }
}

#[derive(Default)]
struct Tally {
    families: BTreeMap<&'static str, Counts>,
}

impl Tally {
    fn note(&mut self, plan: &Plan, family: &'static Family, case: u64, text: &[u8], wanted: &str, outcome: Outcome) {
        let counts = self.families.entry(family.name).or_default();
        for line in wanted.lines() {
            *counts.kinds.entry(kind(line)).or_default() += 1;
        }
        match outcome {
            Outcome::Passed => counts.passed += 1,
            Outcome::NotKnown => counts.not_known += 1,
            Outcome::TooSlow => {
                counts.too_slow += 1;
                println!("too slow: family {} seed {} case {case}", family.name, plan.seed);
                println!("text ({} bytes):\n{}", text.len(), shown(text));
            }
            Outcome::Failed { why, got } => {
                counts.failed += 1;
                println!("DIFFERENCE: family {} seed {} case {case}: {why}", family.name, plan.seed);
                println!("text ({} bytes):\n{}", text.len(), shown(text));
                println!("wanted:\n{}", shown(wanted.as_bytes()));
                println!("got:\n{}", shown(&got));
            }
        }
    }

    fn passed(&self) -> u64 {
        self.families.values().map(|counts| counts.passed).sum()
    }

    fn failed(&self) -> u64 {
        self.families.values().map(|counts| counts.failed + counts.missed()).sum()
    }

    fn print(&self, plan: &Plan) {
        let time = plan.elapsed();
        let (mut not_known, mut too_slow) = (0, 0);
        for (name, counts) in &self.families {
            let kinds: Vec<String> = counts.kinds.iter().map(|(kind, count)| format!("{kind} {count}")).collect();
            println!(
                "{name:12} {} passed, {} failed, {} skipped (not known {}, too slow {}); {}",
                counts.passed,
                counts.failed,
                counts.skipped(),
                counts.not_known,
                counts.too_slow,
                kinds.join(", ")
            );
            if counts.missed() > 0 {
                println!("FAILED: too many cases of {name} were skipped");
            }
            not_known += counts.not_known;
            too_slow += counts.too_slow;
        }
        let all: u64 = self.families.values().map(|counts| counts.passed + counts.failed + counts.skipped()).sum();
        let rate = all as f64 / time.as_secs_f64().max(0.001);
        println!("seed {}: {all} cases in {:.1} s, {rate:.0} a second on {} threads", plan.seed, time.as_secs_f64(), plan.threads);
        println!("skipped {}: not known {not_known}, too slow {too_slow}", not_known + too_slow);
        println!("{} passed, {} failed", self.passed(), self.failed());
    }
}

/// "SC: no order, circle 1 2 by 1 4" is of the kind "SC circle", "refused 3 line 2" of the kind "refused 3".
fn kind(line: &str) -> String {
    let words: Vec<&str> = line.split(' ').collect();
    match words.as_slice() {
        ["refused", number, ..] => format!("refused {number}"),
        [model, "no", "order,", rest @ ..] => {
            let name: Vec<&str> = rest.iter().copied().take_while(|word| word.parse::<u64>().is_err()).collect();
            format!("{} {}", model.trim_end_matches(':'), name.join(" "))
        }
        [model, "order", ..] => format!("{} order", model.trim_end_matches(':')),
        _ => line.replace(':', ""),
    }
}
