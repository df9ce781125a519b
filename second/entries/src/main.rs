//! entries [--seed N] [--seconds N | --cases N] [--family NAME].. [--steps N] [--threads N]
//!
//! Draws texts, and sessions on them; asks every entry of the proved library and the second reading of document 01, and compares all that comes
//! back and all memory that was lent. Each difference is printed with its text and the calls that led to it. The very last line is
//! `N passed, M failed`: texts and session calls.

use entries::call::ENTRIES;
use entries::case::Counts;
use entries::compare::compared;
use entries::desk::Proved;
use second::plan::{ended, Plan};
use std::collections::BTreeMap;
use std::process::ExitCode;
use std::sync::Mutex;

/// Past so many, differences are counted and no longer printed.
const MOST_PRINTED: u64 = 50;

#[derive(Default)]
struct Tally {
    families: BTreeMap<&'static str, Counts>,
    printed: u64,
}

fn main() -> ExitCode {
    let Some(plan) = Plan::of(std::env::args().skip(1)).filter(|plan| plan.program.is_empty()) else {
        eprintln!("usage: entries [--seed N] [--seconds N | --cases N] [--family NAME].. [--steps N] [--threads N]");
        return ExitCode::from(2);
    };
    let tally = Mutex::new(Tally::default());
    plan.each(|family, case| {
        let (counts, differences) = compared(&Proved, family, plan.seed, case, plan.steps);
        tally.lock().expect("no worker panicked").note(family.name, &counts, &differences);
    });
    let tally = tally.into_inner().expect("no worker panicked");
    print(&plan, &tally.families);
    ended(sum(&tally.families).passed(), failed(&tally.families))
}

impl Tally {
    fn note(&mut self, family: &'static str, counts: &Counts, differences: &[String]) {
        self.families.entry(family).or_default().add(counts);
        for difference in differences {
            self.printed += 1;
            if self.printed <= MOST_PRINTED {
                println!("{difference}");
            }
        }
    }
}

fn sum(families: &BTreeMap<&'static str, Counts>) -> Counts {
    let mut all = Counts::default();
    families.values().for_each(|counts| all.add(counts));
    all
}

/// What differed, and the texts of families of which too many were not compared whole.
fn failed(families: &BTreeMap<&'static str, Counts>) -> u64 {
    families.values().map(|counts| counts.failed() + counts.missed()).sum()
}

fn print(plan: &Plan, families: &BTreeMap<&'static str, Counts>) {
    for (name, counts) in families {
        let (texts, calls) = (counts.texts, counts.calls);
        let failed = format!("{} and {}", counts.texts_failed, counts.calls_failed);
        println!("{name:12} {texts} texts and {calls} session calls passed, {failed} failed, {} texts not known", counts.not_known);
        if counts.missed() > 0 {
            println!("FAILED: too many texts of {name} were skipped");
        }
    }
    let all = sum(families);
    for (entry, name) in ENTRIES.iter().enumerate() {
        let answers = || all.answers.iter().filter(|((of, _), _)| *of == entry).map(|((_, answer), count)| (answer, count));
        let each: Vec<String> =
            answers().map(|(answer, count)| answer.map_or("numbers".to_string(), |a| format!("{a}: {count}"))).collect();
        println!("{name:12} {} calls; {}", answers().map(|(_, count)| count).sum::<u64>(), each.join(", "));
    }
    println!("damaged sessions {}, of which {} were sessions all the same", all.damaged, all.still_sessions);
    let (time, compared) = (plan.elapsed().as_secs_f64(), all.passed() + all.failed() + all.not_known);
    let rate = compared as f64 / time.max(0.001) / plan.threads as f64;
    println!("seed {}: {compared} in {time:.1} s, {rate:.0} a second on each of {} threads", plan.seed, plan.threads);
    println!("skipped {}: texts of which a verdict is not known", all.not_known);
    println!("{} passed, {} failed", all.passed(), failed(families));
}
