//! talks [CALLS [SEED]]: sessions alone, until so many calls on them were compared: opened on the texts of every family, and driven by chance calls, records
//! that are added among them. Started by hand; the last line is `N passed, M failed`, a call counted once.

use entries::call::ENTRIES;
use entries::case::{Case, Counts};
use entries::desk::Proved;
use entries::sessions;
use second::chance::Chance;
use second::desk::Page;
use second::families::{text, FAMILIES};
use std::process::ExitCode;

/// No verdict is asked for.
const STEPS: u64 = 1;

fn main() -> ExitCode {
    let numbers: Vec<u64> = std::env::args().skip(1).filter_map(|word| word.parse().ok()).collect();
    let (calls, seed) = (numbers.first().copied().unwrap_or(10_000), numbers.get(1).copied().unwrap_or(1));
    let mut all = Counts::default();
    for number in 0.. {
        if all.calls + all.calls_failed >= calls {
            break;
        }
        for family in FAMILIES.iter().filter(|family| !family.seldom || number % 40 == 0) {
            let text = text(family, seed, number);
            let page = Page::new(&text, STEPS);
            let chance = Chance::of_case(seed ^ 0x7A1C, number);
            let mut case =
                Case { desk: &Proved, text: &text, page, chance, counts: Counts::default(), steps: Vec::new(), differences: Vec::new() };
            sessions::compare(&mut case);
            case.differences
                .iter()
                .for_each(|difference| println!("DIFFERENCE: family {} seed {seed} case {number}: {difference}", family.name));
            all.add(&case.counts);
        }
        if number % 1_000 == 999 {
            println!("{} calls so far, {} differ", all.calls, all.calls_failed);
        }
    }
    for (entry, name) in ENTRIES.iter().enumerate() {
        let answers = all.answers.iter().filter(|((of, _), _)| *of == entry);
        let each: Vec<String> = answers.filter_map(|((_, answer), count)| answer.map(|answer| format!("{answer}: {count}"))).collect();
        if !each.is_empty() {
            println!("{name:12} {}", each.join(", "));
        }
    }
    println!("damaged sessions {}, of which {} were sessions all the same", all.damaged, all.still_sessions);
    println!("{} passed, {} failed", all.calls, all.calls_failed);
    ExitCode::from(u8::from(all.calls_failed > 0))
}
