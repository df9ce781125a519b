//! What the library takes at the most, on traces of the largest size: valid ones, ones with a read changed, knots, and knots in the midst of a run.

use crate::chance::Chance;
use crate::clock;
use crate::draw::{text_of, FAMILIES};
use crate::library::{self, Lent};
use crate::measure::TIMES;
use crate::search;
use crate::tables::{most, summary};
use simple::Model;
use wheelotter::{entries, Answer};

/// A run of so many milliseconds and more is looked at again: the best of TIMES counts.
const LATE: f64 = 10.0;

/// A line for each family and model: how often there is an order; the most placements of the search, by its copy in Rust; the library's time.
/// Of one family, where it is named.
pub fn worst(traces: u64, seed: u64, only: Option<&str>) {
    let records = library::most_records();
    println!("| family, {records} records | model | traces | order | placements: median, p99, most | library, ms: median, p99, most |");
    println!("|---|---|---|---|---|---|");
    for family in FAMILIES.iter().filter(|family| only.is_none_or(|name| name == family.name)) {
        for model in library::models() {
            let (mut orders, mut placements, mut times) = (0, Vec::new(), Vec::new());
            for number in 0..traces {
                let trace = (family.draw)(&mut Chance::of_case(seed, number), records, model);
                let found = search::search(&trace, model);
                orders += u64::from(found.order);
                placements.push(found.placements as f64);
                times.push(milliseconds(&text_of(&trace), model, found.order));
                eprint!("\r{}, {}: {} of {traces}  ", family.name, model.name(), number + 1);
            }
            eprintln!();
            let [middle, late, _] = summary(&placements);
            let [median, p99, _] = summary(&times);
            println!(
                "| {} | {} | {traces} | {orders} | {middle}, {late}, {} | {median:.2}, {p99:.2}, {:.2} |",
                family.name,
                model.name(),
                most(&placements),
                most(&times)
            );
        }
    }
}

/// Of the library's verdict on a text, which has to be an order exactly where the copy of the search finds one.
fn milliseconds(text: &[u8], model: Model, order: bool) -> f64 {
    let mut lent = Lent::new();
    let mut run = || {
        let mut answer = 0;
        let time = clock::timed(|| answer = entries::verdict(text, model as u8, &mut lent.out)) / 1e3;
        assert!((answer == Answer::Order as u8) == order, "the copy of the search differs from the library");
        time
    };
    let first = run();
    let again = if first < LATE { 0 } else { TIMES - 1 };
    (0..again).map(|_| run()).fold(first, f64::min)
}
