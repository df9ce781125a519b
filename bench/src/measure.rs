//! The library against the same checks written simply: request 12.

use crate::agree;
use crate::calls::{the_verdict, Call, CALLS};
use crate::case::Case;
use crate::chance::Chance;
use crate::clock;
use crate::draw::{drawn, text_of};
use crate::library::{self, Lent};
use crate::tables;
use simple::models::Model;
use simple::{verdict, Record, Verdict, Words};
use std::fs::File;
use std::io::Write;
use std::time::{Duration, Instant};

/// The traces measured are those on which the plain search ends within so many steps.
pub const LIMIT: u64 = 1_000_000;

/// The comparison for the gate asks for fewer.
const SHORT_LIMIT: u64 = 20_000;
const SHORT_TRACES: u64 = 25;

/// Each program has so many runs on a trace, and its best counts; one that takes longer than LONG has one.
pub const TIMES: usize = 3;
const LONG: f64 = 50_000.0;

pub const PROGRAMS: [&str; 3] = ["simple", "by rows", "library"];

/// Microseconds of the three programs; a call without a counterpart has none of the first two, and one that does not apply none at all.
pub type Times = [Option<f64>; 3];

/// A trace that is measured, with what the program by rows makes of it, and the chance that goes on.
struct Drawn {
    trace: Vec<Record>,
    verdict: Verdict,
    steps: u64,
    chance: Chance,
}

pub struct Run {
    pub verdict: Verdict,
    pub steps: u64,
    /// For each of CALLS.
    pub times: [Times; CALLS.len()],
}

/// Of one size and model.
pub struct Figures {
    pub records: usize,
    pub model: Model,
    pub drawn: u64,
    pub runs: Vec<Run>,
}

/// The sizes that the library has room for.
fn sizes() -> Vec<usize> {
    let most = library::most_records();
    [64, 128, 256].into_iter().filter(|&records| records <= most).collect()
}

/// A trace by its number, where the plain search ends within the limit.
fn draw(records: usize, model: Model, seed: u64, number: u64, limit: u64) -> Option<Drawn> {
    let mut chance = Chance::of_case(seed ^ (records as u64) << 8 ^ model as u64, number);
    let trace = drawn(&mut chance, records, model);
    let (verdict, steps) = verdict::<Words>(&trace, model, limit);
    (verdict != Verdict::Undecided).then_some(Drawn { trace, verdict, steps, chance })
}

/// The three programs on a case, each from bytes to answer; they take turns.
fn timed(call: &Call, case: &Case, lent: &mut Lent) -> Times {
    let mut best: Times = [None; 3];
    if !call.applies(case) {
        return best;
    }
    for turn in 0..TIMES {
        for (program, best) in best.iter_mut().enumerate() {
            if turn > 0 && best.is_none_or(|best| best > LONG) {
                continue;
            }
            lent.ready_for(case);
            let time = match (program, call.simple) {
                (2, _) => clock::timed(|| (call.library)(case, lent)),
                (_, Some(simple)) => clock::timed(|| simple[program](case)),
                _ => continue,
            };
            *best = Some(best.map_or(time, |best| best.min(time)));
        }
    }
    best
}

/// Whether the verdicts agree on a few traces of each size and model; the last line counts.
pub fn short(seed: u64) -> bool {
    let (mut passed, mut failed) = (0, 0);
    for records in sizes() {
        for model in library::models() {
            for drawn in (0..SHORT_TRACES).filter_map(|number| draw(records, model, seed, number, SHORT_LIMIT)) {
                if agree::on_verdict(&text_of(&drawn.trace), model, &drawn.verdict, SHORT_LIMIT) {
                    passed += 1;
                } else {
                    failed += 1;
                }
            }
        }
    }
    println!("{passed} passed, {failed} failed");
    failed == 0 && passed > 0
}

/// So many traces of each size and model, or as many as so many seconds allow.
pub fn measure(traces: u64, seconds: u64, path: &str, seed: u64) -> std::io::Result<()> {
    let mut file = File::create(path)?;
    writeln!(file, "records\tmodel\tprogram\ttraces\tmedian\tp99\tsum")?;
    let mut all = Vec::new();
    for records in sizes() {
        for model in library::models() {
            let found = figures(records, model, traces, Duration::from_secs(seconds), seed);
            for (program, name) in PROGRAMS.iter().enumerate() {
                let [median, late, sum] = tables::summary(&tables::times(&[&found], the_verdict(), program, tables::any));
                writeln!(file, "{records}\t{}\t{name}\t{}\t{median}\t{late}\t{sum}", model.name(), found.runs.len())?;
            }
            all.push(found);
        }
    }
    tables::print(&all);
    Ok(())
}

fn figures(records: usize, model: Model, traces: u64, time: Duration, seed: u64) -> Figures {
    let mut figures = Figures { records, model, drawn: 0, runs: Vec::new() };
    let mut lent = Lent::new();
    let start = Instant::now();
    while (figures.runs.len() as u64) < traces && start.elapsed() < time {
        let found = draw(records, model, seed, figures.drawn, LIMIT);
        figures.drawn += 1;
        if let Some(Drawn { trace, verdict, steps, mut chance }) = found {
            let case = Case::of(&mut chance, &trace, model).with_simple();
            assert!(agree::on_verdict(&case.text, model, &verdict, LIMIT) && agree::on_calls(&case), "the programs differ");
            let times = std::array::from_fn(|i| timed(&CALLS[i], &case, &mut lent));
            figures.runs.push(Run { verdict, steps, times });
        }
        eprint!("\r{records} records, {}: {} of {traces} traces, {} drawn  ", model.name(), figures.runs.len(), figures.drawn);
    }
    eprintln!();
    figures
}
