//! papers [TRACES [SEED]]: the entry that writes papers, on texts of the families under every model, until so many (1,000) papers were written: each is accepted by both
//! readers, names no edge twice in one branch, and splits only without a circle and on a pair held neither way. Started by hand; it tells how long the lists are and how
//! much processor time writing took, the best of two where it took over 20 ms, and the last line is `N passed, M failed`, a text under a model counted once.

// The clock of bench/, so that both tell the same kind of time.
#[path = "../../../../bench/src/clock.rs"]
mod clock;

use second::desk::Page;
use second::desk::{ACCEPTED, LIST_AT, NOTHING_TO_SHOW, SHOWN};
use second::families::{text, Family, FAMILIES};
use second::papers::broken;
use second::trace::Model;
use std::process::ExitCode;
use wheelotter::entries;

/// Past so many steps the second reading gives up on a verdict.
const STEPS: u64 = 20_000;

/// A list that is longer is a failure here.
const ROOM: usize = 1 << 20;

/// Where writing took more microseconds it is timed once more: what else the machine does shows in single runs.
const AGAIN: f64 = 20_000.0;

/// Of all papers, and of those of traces with so many records at the least: how many, how long, how many with a split, the slowest in microseconds.
#[derive(Default)]
struct Told {
    papers: u64,
    numbers: u64,
    longest: usize,
    splits: u64,
    slowest: f64,
}

impl Told {
    fn note(&mut self, list: &[u16], micros: f64) {
        self.papers += 1;
        self.numbers += list.len() as u64;
        self.longest = self.longest.max(list.len());
        self.splits += u64::from(list[0] == 8);
        self.slowest = self.slowest.max(micros);
    }

    fn tell(&self, name: &str) {
        let mean = self.numbers as f64 / self.papers.max(1) as f64;
        println!(
            "{name}: {} papers, {} of them with splits; {mean:.1} numbers in the mean, {} at the most; {:.0} us at the most",
            self.papers, self.splits, self.longest, self.slowest
        );
    }
}

/// What the entry answers, and how many microseconds of processor time that took.
fn written(text: &[u8], model: u8, room: &mut [u16]) -> (u8, f64) {
    let mut got = 0;
    let mut once = || clock::timed(|| got = entries::paper(text, model, room));
    let mut micros = once();
    if micros > AGAIN {
        micros = micros.min(once());
    }
    (got, micros)
}

fn main() -> ExitCode {
    let numbers: Vec<u64> = std::env::args().skip(1).filter_map(|word| word.parse().ok()).collect();
    let number = |place: usize, usual: u64| numbers.get(place).copied().unwrap_or(usual);
    let (papers, seed) = (number(0, 1_000), number(1, 1));
    let names = ["stated", "weak", "sc-changed", "tso-changed", "weaker-changed", "knot", "dense", "middle", "rounds", "long-changed"];
    let families: Vec<&Family> = FAMILIES.iter().filter(|family| names.contains(&family.name)).collect();
    let (mut all, mut long, mut other, mut failed) = (Told::default(), Told::default(), 0, 0);
    let mut room = vec![0; LIST_AT + ROOM];
    for case in 0.. {
        let text = text(families[case as usize % families.len()], seed, case);
        let page = Page::new(&text, STEPS);
        let Some(trace) = page.trace() else { continue };
        for &model in Model::all() {
            let number = model.number() as u8;
            let (got, micros) = written(&text, number, &mut room);
            let wanted = page.paper_answer(number);
            let mut why = wanted.filter(|&wanted| wanted != got).map(|_| "another answer");
            if got == SHOWN {
                let list = &room[LIST_AT..][..usize::from(room[0]) + (usize::from(room[1]) << 16)];
                all.note(list, micros);
                if trace.count > 128 {
                    long.note(list, micros);
                }
                why = why
                    .or(broken(trace, model, list))
                    .or((entries::accepts(&text, number, list) != ACCEPTED).then_some("the library does not accept it"));
            } else if got == NOTHING_TO_SHOW {
                other += 1;
            } else {
                why = why.or(Some("no paper"));
            }
            if let Some(why) = why {
                failed += 1;
                println!("DIFFERENCE: case {case} under {number}: {why}: answer {got}\n{}", String::from_utf8_lossy(&text));
            }
        }
        if all.papers >= papers {
            break;
        }
    }
    all.tell("all");
    long.tell("over 128 records");
    println!("{} passed, {failed} failed", all.papers + other - failed);
    ExitCode::from(u8::from(failed > 0))
}
