//! What is to be compared, told by the words after a program's name; the two comparisons share it.

use crate::families::{family, Family, FAMILIES};
use crate::verdict::MOST_STEPS;
use std::process::ExitCode;
use std::sync::atomic::{AtomicU64, Ordering};
use std::thread;
use std::time::{Duration, Instant};

/// After so many rounds of the other families comes a case of each that is drawn seldom.
const SELDOM: u64 = 40;

pub struct Plan {
    pub seed: u64,
    pub time: Option<Duration>,
    pub cases: u64,
    pub families: Vec<&'static Family>,
    pub steps: u64,
    /// How long a program that is fed may take.
    pub patience: Duration,
    pub threads: usize,
    /// The words that start the program that is fed.
    pub program: Vec<String>,
    begun: Instant,
    next: AtomicU64,
}

impl Plan {
    /// None where the words are not of the form.
    pub fn of(mut words: impl Iterator<Item = String>) -> Option<Plan> {
        let mut plan = Plan::new();
        while let Some(word) = words.next() {
            if word == "--" {
                plan.program = words.by_ref().collect();
                break;
            }
            let value = words.next()?;
            match word.as_str() {
                "--seed" => plan.seed = value.parse().ok()?,
                "--seconds" => plan.time = Some(Duration::from_secs(value.parse().ok()?)),
                "--cases" => plan.cases = value.parse().ok()?,
                "--family" => plan.families.push(family(&value)?),
                "--steps" => plan.steps = value.parse().ok()?,
                "--patience" => plan.patience = Duration::from_secs(value.parse().ok()?),
                "--threads" => plan.threads = value.parse().ok().filter(|&n| n > 0)?,
                _ => return None,
            }
        }
        if plan.families.is_empty() {
            plan.families = FAMILIES.iter().collect();
        }
        if plan.time.is_none() && plan.cases == u64::MAX {
            plan.cases = 1_000;
        }
        Some(plan)
    }

    fn new() -> Plan {
        Plan {
            seed: 1,
            time: None,
            cases: u64::MAX,
            families: Vec::new(),
            steps: MOST_STEPS,
            patience: Duration::from_secs(20),
            threads: 2,
            program: Vec::new(),
            begun: Instant::now(),
            next: AtomicU64::new(0),
        }
    }

    /// The next case, for whichever thread asks; None when there is none or the time is up. Cases go round the families, so that every family
    /// gets its share however early the time ends; those that are drawn seldom have their turn after so many rounds of the others.
    pub fn next(&self) -> Option<(&'static Family, u64)> {
        let number = self.next.fetch_add(1, Ordering::Relaxed);
        if number >= self.cases || self.time.is_some_and(|time| self.begun.elapsed() >= time) {
            return None;
        }
        let (often, seldom): (Vec<&'static Family>, Vec<&'static Family>) = self.families.iter().partition(|family| !family.seldom);
        let (rounds, in_rounds) = if often.is_empty() { (1, 0) } else { (SELDOM, SELDOM * often.len() as u64) };
        let (turn, place) = (number / (in_rounds + seldom.len() as u64), number % (in_rounds + seldom.len() as u64));
        if place < in_rounds {
            let count = often.len() as u64;
            Some((often[(place % count) as usize], turn * rounds + place / count))
        } else {
            Some((seldom[(place - in_rounds) as usize], turn))
        }
    }

    /// Every case, on as many threads as were asked for.
    pub fn each(&self, compare: impl Fn(&'static Family, u64) + Sync) {
        thread::scope(|scope| {
            for _ in 0..self.threads {
                scope.spawn(|| {
                    while let Some((family, case)) = self.next() {
                        compare(family, case);
                    }
                });
            }
        });
    }

    pub fn elapsed(&self) -> Duration {
        self.begun.elapsed()
    }
}

/// Of so many cases of a family one may be skipped, and two of however many.
const SHARE: u64 = 10;
const FORGIVEN: u64 = 2;

/// How many skipped cases of a family are failures: none while they are few, all of them past that, and where nothing else was compared. What nobody looks
/// at is not good; but of a run of seconds the long families have some dozen cases, and of one in fifty the search here does not find the end.
pub fn missed(skipped: u64, compared: u64) -> u64 {
    if compared == 0 || skipped > FORGIVEN && skipped * SHARE > skipped + compared {
        skipped
    } else {
        0
    }
}

/// Good only where something passed and nothing failed: what never answers in time has not passed anything.
pub fn ended(passed: u64, failed: u64) -> ExitCode {
    if failed == 0 && passed > 0 {
        ExitCode::SUCCESS
    } else {
        ExitCode::FAILURE
    }
}

/// Readable, and exact: bytes that do not print are told by their escapes, feeds also end the shown line. Long texts are cut; the case
/// number gives them whole.
pub fn shown(bytes: &[u8]) -> String {
    let cut = &bytes[..bytes.len().min(6_000)];
    let mut shown = cut.escape_ascii().to_string().replace("\\n", "\\n\n").replace("\\'", "'").replace("\\\"", "\"");
    if cut.len() < bytes.len() {
        shown.push_str(" ...");
    }
    shown
}
