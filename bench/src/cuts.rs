//! How long it takes to cut a faulty trace of the largest size down, and to write its paper, in each family that is faulty.

use crate::chance::Chance;
use crate::clock;
use crate::draw::{text_of, FAMILIES};
use crate::library;
use crate::measure::TIMES;
use crate::tables::{most, summary};
use wheelotter::{entries, Answer, SMALLER};

/// A run of so many milliseconds and more is looked at again: the best of TIMES counts.
const LATE: f64 = 40.0;

/// Room for a paper; what does not fit is not counted.
const PAPER: usize = 1 << 20;

/// Of so many traces how many are cut down, how many records are left, and the library's time.
pub fn cuts(traces: u64, seed: u64) {
    let mut out = vec![0; SMALLER];
    each("cut down", "left", traces, seed, |text, model| {
        let answer = entries::smaller(text, model, &mut out);
        (answer == Answer::Cut as u8).then(|| u64::from(u16::from_le_bytes([out[0], out[1]])))
    });
}

/// Of so many traces how many get a paper, how many numbers it has, and the library's time.
pub fn papers(traces: u64, seed: u64) {
    let mut out = vec![0; PAPER];
    each("papers", "numbers", traces, seed, |text, model| {
        let answer = entries::paper(text, model, &mut out);
        (answer == Answer::Shown as u8).then(|| u64::from(out[0]) + (u64::from(out[1]) << 16))
    });
}

/// A line for each family and model: how many of the traces the call counts, what it counts in the mean and at the most, and its time.
fn each(counted: &str, what: &str, traces: u64, seed: u64, mut call: impl FnMut(&[u8], u8) -> Option<u64>) {
    let records = library::most_records();
    println!("| family, {records} records | model | traces | {counted} | {what}: mean, most | ms: median, p99, most |");
    println!("|---|---|---|---|---|---|");
    for family in &FAMILIES {
        for model in library::models() {
            let (mut counts, mut times): (Vec<u64>, Vec<f64>) = (Vec::new(), Vec::new());
            for number in 0..traces {
                let text = text_of(&(family.draw)(&mut Chance::of_case(seed, number), records, model));
                let mut run = || {
                    let mut count = None;
                    let time = clock::timed(|| count = call(&text, model as u8)) / 1e3;
                    (count, time)
                };
                let (count, first) = run();
                let again = if first < LATE { 0 } else { TIMES - 1 };
                let time = (0..again).map(|_| run().1).fold(first, f64::min);
                if let Some(count) = count {
                    counts.push(count);
                    times.push(time);
                }
                eprint!("\r{}, {}: {} of {traces}  ", family.name, model.name(), number + 1);
            }
            eprintln!();
            let Some(highest) = counts.iter().max() else { continue };
            let [median, p99, _] = summary(&times);
            let mean = counts.iter().sum::<u64>() as f64 / counts.len() as f64;
            println!(
                "| {} | {} | {traces} | {} | {mean:.1}, {highest} | {median:.1}, {p99:.1}, {:.1} |",
                family.name,
                model.name(),
                times.len(),
                most(&times)
            );
        }
    }
}
