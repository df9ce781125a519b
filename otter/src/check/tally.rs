//! The counts of a night.

use crate::judged::{Judged, State, FOUND, STATES};
use crate::memory::Memory;
use crate::status;
use serde_json::{json, Map, Value};

/// How many traces came to each state, and how often each verdict was found under each model.
#[derive(Clone, Debug, PartialEq, Eq)]
pub struct Tally {
    states: [u64; 5],
    models: Vec<(String, [u64; 5])>,
}

impl Tally {
    pub fn of(models: &[Memory]) -> Tally {
        Tally { states: [0; 5], models: models.iter().map(|memory| (memory.name().to_string(), [0; 5])).collect() }
    }

    pub fn count(&mut self, judged: &Judged) {
        self.states[judged.state() as usize] += 1;
        if let Judged::Found(found) = judged {
            for ((_, found), (_, counts)) in found.iter().zip(&mut self.models) {
                counts[found.kind()] += 1;
            }
        }
    }

    pub fn states(&self) -> [u64; 5] {
        self.states
    }

    /// What was found under the model in a place.
    pub fn found(&self, place: usize) -> [u64; 5] {
        self.models[place].1
    }

    pub fn all(&self) -> u64 {
        self.states.iter().sum()
    }

    fn at(&self, state: State) -> u64 {
        self.states[state as usize]
    }

    pub fn kept(&self) -> u64 {
        self.at(State::Kept)
    }

    pub fn faulty(&self) -> u64 {
        self.at(State::Faulty)
    }

    pub fn status(&self) -> u8 {
        if self.all() > self.kept() + self.faulty() {
            return status::UNJUDGED;
        }
        if self.faulty() > 0 {
            return status::FAULTY;
        }
        status::KEPT
    }

    /// The last line of `--json`. Without a time: the same traces give the same bytes.
    pub fn json(&self) -> Value {
        let counts = |names: &[&str], counts: &[u64; 5]| -> Map<String, Value> {
            names.iter().zip(counts).map(|(name, count)| (name.to_string(), json!(count))).collect()
        };
        let mut summary = Map::new();
        summary.insert("otter".into(), json!(env!("CARGO_PKG_VERSION")));
        summary.insert("traces".into(), json!(self.all()));
        summary.extend(counts(&STATES.map(State::name), &self.states));
        let models: Map<String, Value> = self.models.iter().map(|(name, found)| (name.clone(), json!(counts(&FOUND, found)))).collect();
        summary.insert("models".into(), json!(models));
        json!({ "summary": summary })
    }

    /// What `json` wrote; None where a line is no summary of this version.
    pub fn read(line: &str) -> Option<Tally> {
        let line: Value = serde_json::from_str(line).ok()?;
        let summary = line.get("summary")?;
        let counts = |names: &[&str], of: &Value| -> Option<[u64; 5]> {
            let counts: Option<Vec<u64>> = names.iter().map(|name| of.get(name)?.as_u64()).collect();
            counts?.try_into().ok()
        };
        let models: Option<Vec<(String, [u64; 5])>> =
            summary.get("models")?.as_object()?.iter().map(|(name, found)| Some((name.clone(), counts(&FOUND, found)?))).collect();
        let tally = Tally { states: counts(&STATES.map(State::name), summary)?, models: models? };
        // Whatever else stands there, or does not add up, is not what this version writes.
        (tally.json() == line).then_some(tally)
    }

    /// Both together; None where they are about different models.
    pub fn and(mut self, other: &Tally) -> Option<Tally> {
        let names = |tally: &Tally| -> Vec<String> { tally.models.iter().map(|(name, _)| name.clone()).collect() };
        if names(&self) != names(other) {
            return None;
        }
        self.states.iter_mut().zip(other.states).for_each(|(mine, theirs)| *mine += theirs);
        for ((_, mine), (_, theirs)) in self.models.iter_mut().zip(&other.models) {
            mine.iter_mut().zip(theirs).for_each(|(mine, theirs)| *mine += theirs);
        }
        Some(self)
    }

    /// Whether it is about these models, in this order.
    pub fn is_of(&self, models: &[Memory]) -> bool {
        self.models.iter().map(|(name, _)| name.as_str()).eq(models.iter().map(|memory| memory.name()))
    }

    /// How many traces there were, in words.
    pub fn traces(&self) -> String {
        format!("{} trace{}", self.all(), if self.all() == 1 { "" } else { "s" })
    }

    /// The summary for people: what became of the traces and how long it took, then a line for each model.
    pub fn words(&self, seconds: f64) -> String {
        let states: Vec<String> = STATES.iter().map(|state| format!("{} {}", self.at(*state), state.name())).collect();
        let mut words = format!("{}: {}; {seconds:.2} s, {:.0} a second", self.traces(), states.join(", "), self.all() as f64 / seconds);
        for (name, counts) in &self.models {
            let found: Vec<String> = FOUND.iter().zip(counts).map(|(found, count)| format!("{count} {found}")).collect();
            words += &format!("\n{name}: {}", found.join(", "));
        }
        words
    }
}
