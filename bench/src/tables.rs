//! The tables of docs/SPEED.md in which the library stands beside the simple programs.

use crate::calls::{the_verdict, CALLS};
use crate::measure::Figures;
use simple::Verdict;

type Kind = fn(&Verdict) -> bool;

pub fn any(_: &Verdict) -> bool {
    true
}

fn order(verdict: &Verdict) -> bool {
    matches!(verdict, Verdict::Order(_))
}

fn faulty(verdict: &Verdict) -> bool {
    !order(verdict)
}

/// Median, the time that one in a hundred exceeds, and sum.
pub fn summary(times: &[f64]) -> [f64; 3] {
    let mut sorted = times.to_vec();
    sorted.sort_by(f64::total_cmp);
    let at = |part: f64| sorted.get(((sorted.len() as f64 * part).ceil() as usize).saturating_sub(1)).copied().unwrap_or(0.0);
    [at(0.5), at(0.99), sorted.iter().sum()]
}

/// The largest.
pub fn most(times: &[f64]) -> f64 {
    times.iter().copied().fold(0.0, f64::max)
}

/// The times of a program with a call, over the traces of a kind.
pub fn times(all: &[&Figures], call: usize, program: usize, kind: Kind) -> Vec<f64> {
    let runs = all.iter().flat_map(|figures| &figures.runs).filter(|run| kind(&run.verdict));
    runs.filter_map(|run| run.times[call][program]).collect()
}

pub fn print(all: &[Figures]) {
    population(all);
    for (title, kind) in [("All traces measured", any as Kind), ("Those with an order", order), ("Those with none", faulty)] {
        println!("\n{title}, microseconds:\n");
        verdicts(all, kind);
    }
    println!("\nEvery call, under all models, microseconds:\n");
    calls(all);
}

/// How many traces were drawn, how many of them are measured, and what came out.
fn population(all: &[Figures]) {
    println!("| records | model | drawn | measured | order | circle | none left | no source | most steps |");
    println!("|---|---|---|---|---|---|---|---|---|");
    for f in all {
        let count = |kind: Kind| f.runs.iter().filter(|run| kind(&run.verdict)).count();
        println!(
            "| {} | {} | {} | {} | {} | {} | {} | {} | {} |",
            f.records,
            f.model.name(),
            f.drawn,
            f.runs.len(),
            count(order),
            count(|verdict| matches!(verdict, Verdict::Circle { .. })),
            count(|verdict| *verdict == Verdict::NoneLeft),
            count(|verdict| matches!(verdict, Verdict::NoSource(_))),
            f.runs.iter().map(|run| run.steps).max().unwrap_or(0)
        );
    }
}

const COLUMNS: &str = "traces | simple, median (p99) | by rows | library | library / simple: median, p99, sum | library / by rows |";

/// A line for each size and model.
fn verdicts(all: &[Figures], kind: Kind) {
    println!("| records | model | {COLUMNS}\n|---|---|---|---|---|---|---|---|");
    for f in all {
        println!("| {} | {} | {}", f.records, f.model.name(), columns(&[f], the_verdict(), kind));
    }
}

/// A line for each size and entry.
fn calls(all: &[Figures]) {
    println!("| records | call | {COLUMNS}\n|---|---|---|---|---|---|---|---|");
    for of_one_size in all.chunk_by(|a, b| a.records == b.records) {
        let figures: Vec<&Figures> = of_one_size.iter().collect();
        for (i, call) in CALLS.iter().enumerate() {
            println!("| {} | {} | {}", figures[0].records, call.name, columns(&figures, i, any));
        }
    }
}

/// The times of each program, and how the library compares: by medians, by the slowest in a hundred, by sums. A dash where a program has no such call.
fn columns(all: &[&Figures], call: usize, kind: Kind) -> String {
    let lists = [0, 1, 2].map(|program| times(all, call, program, kind));
    let [simple, rows, library] = [0, 1, 2].map(|program| (!lists[program].is_empty()).then(|| summary(&lists[program])));
    let time = |other: Option<[f64; 3]>| other.map_or("-".to_string(), |[median, late, _]| format!("{median:.0} ({late:.0})"));
    let ratio = |other: [f64; 3]| [0, 1, 2].map(|i| library.map_or(0.0, |library| library[i]) / other[i]).map(|part| format!("{part:.3}"));
    let ratios = |other: Option<[f64; 3]>| other.map_or("-".to_string(), |other| ratio(other).join(", "));
    format!("{} | {} | {} | {} | {} | {} |", lists[2].len(), time(simple), time(rows), time(library), ratios(simple), ratios(rows))
}
