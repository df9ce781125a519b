//! The proved library measured; bench/run builds it and calls this.
//!
//!     bench measure TRACES SECONDS FIGURES [SEED]   against the same checks written simply: so many traces a size and model, or so many seconds;
//!                                                   prints tables, and writes the figures into a file
//!     bench short [SEED]                            only whether the verdicts agree
//!     bench worst TRACES [SEED [FAMILY]]            the most placements and the longest time in each family, or in one
//!     bench cuts TRACES [SEED]                      the time of cutting a faulty trace down
//!     bench papers TRACES [SEED]                    the time of writing its paper
//!     bench entries TRACES [SEED]                   the time of every entry, over so many traces of each family and model
//!     bench stack TRACES [SEED]                     the same for its stack

mod agree;
mod calls;
mod case;
mod chance;
mod clock;
mod cuts;
mod draw;
mod entries;
mod library;
mod measure;
mod search;
mod stack;
mod tables;
mod worst;

fn main() -> std::io::Result<()> {
    let words: Vec<String> = std::env::args().skip(1).collect();
    let number = |i: usize, other: u64| words.get(i).and_then(|word| word.parse().ok()).unwrap_or(other);
    match words.first().map(String::as_str) {
        Some("measure") if words.len() > 3 => measure::measure(number(1, 200), number(2, 600), &words[3], number(4, 1))?,
        Some("short") if !measure::short(number(1, 1)) => std::process::exit(1),
        Some("short") => {}
        Some("worst") => worst::worst(number(1, 1000), number(2, 1), words.get(3).map(String::as_str)),
        Some("cuts") => cuts::cuts(number(1, 100), number(2, 1)),
        Some("papers") => cuts::papers(number(1, 100), number(2, 1)),
        Some("entries") => entries::entries(number(1, 100), number(2, 1)),
        Some("stack") => stack::stack(number(1, 100), number(2, 1)),
        _ => eprintln!("usage: bench measure TRACES SECONDS FIGURES [SEED] | short [SEED] | worst TRACES [SEED [FAMILY]] | cuts|papers|entries|stack TRACES [SEED]"),
    }
    Ok(())
}
