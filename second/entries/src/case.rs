//! One case: a text, the calls on it and on its sessions, and what came of them.

use crate::call::Call;
use crate::desk::Desk;
use crate::lent::Lent;
use second::chance::Chance;
use second::desk::Page;
use second::plan::missed;
use std::collections::BTreeMap;

#[derive(Clone, Default)]
pub struct Counts {
    pub texts: u64,
    pub texts_failed: u64,
    /// Texts on which the second reading does not know a verdict; whatever else could be compared was right.
    pub not_known: u64,
    /// Calls on sessions: opening, supposing, taking back, asking, adding, looking for who waits.
    pub calls: u64,
    pub calls_failed: u64,
    /// Damaged sessions, and those of them that were a session all the same.
    pub damaged: u64,
    pub still_sessions: u64,
    /// For each of `ENTRIES` how often each answer was wanted; None for those that are not of the table.
    pub answers: BTreeMap<(usize, Option<usize>), u64>,
}

impl Counts {
    pub fn add(&mut self, other: &Counts) {
        self.texts += other.texts;
        self.texts_failed += other.texts_failed;
        self.not_known += other.not_known;
        self.calls += other.calls;
        self.calls_failed += other.calls_failed;
        self.damaged += other.damaged;
        self.still_sessions += other.still_sessions;
        for (answer, count) in &other.answers {
            *self.answers.entry(*answer).or_default() += count;
        }
    }

    pub fn passed(&self) -> u64 {
        self.texts + self.calls
    }

    pub fn failed(&self) -> u64 {
        self.texts_failed + self.calls_failed
    }

    /// Of one family: texts whose verdict is not known, where they are too many.
    pub fn missed(&self) -> u64 {
        missed(self.not_known, self.texts + self.texts_failed)
    }
}

/// What was done so far: a call with the answer that was wanted, or something done to a session's bytes in between.
pub enum Step {
    Called(Call, usize),
    Done(String),
}

pub struct Case<'a, D: Desk> {
    pub desk: &'a D,
    pub text: &'a [u8],
    pub page: Page<'a>,
    pub chance: Chance,
    pub counts: Counts,
    pub steps: Vec<Step>,
    /// Each with the calls that led there.
    pub differences: Vec<String>,
}

impl<D: Desk> Case<'_, D> {
    /// Notes a call with what was wanted and what came; true where they are the same, memory and all.
    pub fn same(&mut self, call: Call, (wanted, mine): (usize, &Lent), (got, theirs): (usize, &Lent)) -> bool {
        // a record or a word above the number is told, not counted
        let answer = call.answers_by_table().then_some(wanted % 256);
        *self.counts.answers.entry((call.entry(), answer)).or_default() += 1;
        let same = wanted == got && mine == theirs;
        if !same {
            let calls: String = self.steps.iter().map(told).collect();
            let answers = format!("{call}: wanted {wanted}, got {got}\n");
            self.differences.push(format!("{answers}{}calls so far:\n{calls}", mine.differences(theirs)));
        }
        self.steps.push(Step::Called(call, wanted));
        same
    }

    /// The same for an entry that is lent nothing to write.
    pub fn same_answer(&mut self, call: Call, wanted: usize, got: usize) -> bool {
        let nothing = Lent::of(&[]);
        self.same(call, (wanted, &nothing), (got, &nothing))
    }
}

fn told(step: &Step) -> String {
    match step {
        Step::Called(call, wanted) => format!("    {call}: {wanted}\n"),
        Step::Done(what) => format!("    {what}\n"),
    }
}
