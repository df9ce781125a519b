//! What every entry of the library takes, at 64 records and at the most: whole answers, single verdicts, the judge, a session's calls.

use crate::calls::{the_verdict, Call, CALLS};
use crate::case::Case;
use crate::chance::Chance;
use crate::clock;
use crate::draw::FULL;
use crate::library::{self, Lent};
use crate::measure::TIMES;
use crate::tables::{most, summary};
use simple::Model;

/// The times of one line, in microseconds, by family.
struct Line {
    call: &'static Call,
    /// Only under this one.
    model: Option<Model>,
    times: [Vec<f64>; FULL.len()],
}

/// A line for each entry, for the verdict one for each model; other entries are timed under all models together.
pub fn entries(traces: u64, seed: u64) {
    let names = FULL.map(|family| family.name);
    println!("| records | entry, us | {}: median, p99, most |", names.join(": median, p99, most | "));
    println!("|---|---|{}", "---|".repeat(names.len()));
    for records in [64, library::most_records()] {
        for line in timed(records, traces, seed) {
            let name = line.model.map_or(String::new(), |model| format!(", {}", model.name()));
            let told = line.times.map(|times| {
                let [median, late, _] = summary(&times);
                format!("{median:.0}, {late:.0}, {:.0}", most(&times))
            });
            println!("| {records} | {}{name} | {} |", line.call.name, told.join(" | "));
        }
    }
}

fn lines() -> Vec<Line> {
    let models: Vec<Option<Model>> = library::models().into_iter().map(Some).collect();
    let under = |i: usize| if i == the_verdict() { models.clone() } else { vec![None] };
    let line = |call, model| Line { call, model, times: std::array::from_fn(|_| Vec::new()) };
    CALLS.iter().enumerate().flat_map(|(i, call)| under(i).into_iter().map(move |model| line(call, model))).collect()
}

/// All lines over so many traces of each family and model.
fn timed(records: usize, traces: u64, seed: u64) -> Vec<Line> {
    let mut lines = lines();
    for (place, family) in FULL.iter().enumerate() {
        for model in library::models() {
            for number in 0..traces {
                let mut chance = Chance::of_case(seed, number);
                let trace = (family.draw)(&mut chance, records, model);
                let case = Case::of(&mut chance, &trace, model);
                for line in lines.iter_mut().filter(|line| line.call.applies(&case) && line.model.is_none_or(|own| own == model)) {
                    line.times[place].push(best(line.call, &case));
                }
                eprint!("\r{records} records, {}, {}: {} of {traces}  ", family.name, model.name(), number + 1);
            }
            eprintln!();
        }
    }
    lines
}

fn best(call: &Call, case: &Case) -> f64 {
    let mut lent = Lent::new();
    let run = |_| {
        lent.ready_for(case);
        clock::timed(|| (call.library)(case, &mut lent))
    };
    (0..TIMES).map(run).fold(f64::MAX, f64::min)
}
