//! cuts [TRACES [SEED [RECORDS]]]: the entry that cuts a faulty trace down beside the second reading, which looks for the lowest record again and again,
//! on texts of the families with at most RECORDS (40) records, under every model, until so many (1,000) were cut down. Started by hand; the last line is
//! `N passed, M failed`, a text under a model counted once.

use second::desk::{Page, CUT, LEFT};
use second::families::{text, Family, FAMILIES};
use second::trace::{text_of, Model};
use std::collections::BTreeMap;
use std::process::ExitCode;

/// Past so many steps the second reading gives up.
const STEPS: u64 = 200_000;

fn main() -> ExitCode {
    let numbers: Vec<u64> = std::env::args().skip(1).filter_map(|word| word.parse().ok()).collect();
    let number = |place: usize, usual: u64| numbers.get(place).copied().unwrap_or(usual);
    let (traces, seed, records) = (number(0, 1_000), number(1, 1), number(2, 40) as usize);
    let families: Vec<&Family> = FAMILIES.iter().filter(|family| !family.seldom).collect();
    let mut answers: BTreeMap<u8, u64> = BTreeMap::new();
    let (mut failed, mut not_known, mut left, mut before) = (0, 0, 0, 0);
    for case in 0.. {
        let text = text(families[case as usize % families.len()], seed, case);
        let page = Page::new(&text, STEPS);
        let Some(trace) = page.trace().filter(|trace| (1..=records).contains(&trace.count)) else { continue };
        let room = LEFT + text_of(trace).len() + 3;
        for &model in Model::all() {
            let (mut mine, mut theirs) = (vec![0xA5; room], vec![0xA5; room]);
            let Some(wanted) = page.smaller(model.number() as u8, &mut mine) else {
                not_known += 1;
                continue;
            };
            let got = wheelotter::entries::smaller(&text, model.number() as u8, &mut theirs);
            *answers.entry(wanted).or_default() += 1;
            if wanted == CUT {
                left += u64::from(u16::from_le_bytes([mine[0], mine[1]]));
                before += trace.count as u64;
            }
            if wanted != got || mine != theirs {
                failed += 1;
                println!("DIFFERENCE: case {case} under {}: wanted {wanted}, got {got}", model.number() as u8);
                println!("{}", String::from_utf8_lossy(&text));
            }
        }
        if answers.get(&CUT).is_some_and(|&cut| cut >= traces) {
            break;
        }
    }
    let asked: u64 = answers.values().sum();
    println!("answers: {answers:?}; {not_known} not known; of {before} records in what was cut down {left} are left");
    println!("{} passed, {failed} failed", asked - failed);
    ExitCode::from(u8::from(failed > 0))
}
