//! files [FILES [SEED]]
//!
//! Damages packed files byte for byte: each drawn trace's file, then the same with each of its bytes in turn changed, is handed to the proved library
//! and to the second reading; number, line and text, and all memory that was lent, are compared. A million files where nothing else is said. Each
//! difference is printed; before the last line comes how long packing and unpacking 256 records take; the very last line is `N passed, M failed`. It is
//! started by hand: the gate draws files in `entries`.

use ::entries::case::{Case, Counts};
use ::entries::desk::Proved;
use ::entries::packs::looked_at;
use second::chance::Chance;
use second::desk::Page;
use second::families::{text, FAMILIES};
use second::packed::file_of;
use second::trace::{text_of, Record, Trace, MOST_RECORDS};
use std::collections::BTreeMap;
use std::process::ExitCode;
use std::time::Instant;
use wheelotter::entries;

/// Past so many steps a verdict would not be known; none is asked here.
const STEPS: u64 = 1;

#[derive(Default)]
struct Tally {
    passed: u64,
    failed: u64,
    numbers: BTreeMap<usize, u64>,
}

fn main() -> ExitCode {
    let words: Vec<u64> = std::env::args().skip(1).filter_map(|word| word.parse().ok()).collect();
    let (wanted, seed) = (words.first().copied().unwrap_or(1_000_000), words.get(1).copied().unwrap_or(1));
    let mut tally = Tally::default();
    for number in 0.. {
        if tally.passed + tally.failed >= wanted {
            break;
        }
        let family = &FAMILIES[(number % FAMILIES.len() as u64) as usize];
        if !family.seldom || number % 7 == 0 {
            compare(&text(family, seed, number), Chance::of_case(seed ^ 0xF11E5, number), &mut tally);
        }
    }
    let each: Vec<String> = tally.numbers.iter().map(|(number, count)| format!("{number}: {count}")).collect();
    println!("numbers of files: {}", each.join(", "));
    times();
    println!("{} passed, {} failed", tally.passed, tally.failed);
    ExitCode::from(u8::from(tally.failed > 0))
}

/// The mean time of packing and unpacking as many records as there may be: of all kinds on all addresses, and stores at one address, each of which is held
/// against all before it.
fn times() {
    let mixed = |i: u64| match i % 4 {
        0 => Record::Store { thread: i % 8, address: i % 16, written: i + 1 },
        1 => Record::Load { thread: i % 8, address: i % 16, read: 0 },
        2 => Record::Swap { thread: i % 8, address: i % 16, read: 0, written: i + 1 },
        _ => Record::Fence { thread: i % 8 },
    };
    let crowded = |i: u64| Record::Store { thread: 0, address: 15, written: 65_535 - i };
    let all = MOST_RECORDS as u64;
    for (what, records) in
        [("all kinds", (0..all).map(mixed).collect::<Vec<_>>()), ("stores at one address", (0..all).map(crowded).collect())]
    {
        let trace = Trace::of(&records);
        let (text, file) = (text_of(&trace), file_of(&trace));
        let mut out = vec![0; 40_000];
        let packing = mean(|| entries::pack(&text, &mut out));
        let unpacking = mean(|| entries::unpack(&file, &mut out));
        println!("{all} records, {what}: packed in {packing:.1} us, unpacked in {unpacking:.1} us");
    }
}

/// In microseconds, over a thousand calls that are done.
fn mean(mut call: impl FnMut() -> u8) -> f64 {
    let start = Instant::now();
    for _ in 0..1_000 {
        assert_eq!(call(), 0);
    }
    start.elapsed().as_secs_f64() * 1_000.0
}

/// The text's file, and it damaged at every byte.
fn compare(text: &[u8], chance: Chance, tally: &mut Tally) {
    let page = Page::new(text, STEPS);
    let Some(file) = page.trace().map(file_of) else { return };
    let mut case = Case { desk: &Proved, text, page, chance, counts: Counts::default(), steps: Vec::new(), differences: Vec::new() };
    look(&mut case, "a file", &file, tally);
    for place in 0..file.len() {
        let mut harmed = file.clone();
        let (any, bit) = (case.chance.below(256) as u8, 1 << case.chance.below(8));
        harmed[place] = *case.chance.of(&[0, 1, 255, file[place].wrapping_add(1), file[place].wrapping_sub(1), file[place] ^ bit, any]);
        look(&mut case, "damaged", &harmed, tally);
    }
    let cut = case.chance.below(file.len());
    look(&mut case, "cut short", &file[..cut], tally);
    look(&mut case, "left over", &[&file[..], &[0]].concat(), tally);
}

fn look(case: &mut Case<'_, Proved>, what: &str, file: &[u8], tally: &mut Tally) {
    case.steps.clear();
    case.differences.clear();
    if looked_at(case, what, file) {
        tally.passed += 1;
    } else {
        tally.failed += 1;
        case.differences.iter().for_each(|difference| println!("DIFFERENCE: {difference}"));
    }
    *tally.numbers.entry(second::packs::number(file).into()).or_default() += 1;
}
