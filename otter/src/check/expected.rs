//! A night beside a stored one.

use super::tally::Tally;
use crate::judged::{Judged, FOUND};
use crate::memory::Memory;
use crate::status;
use serde_json::Value;
use std::collections::BTreeMap;
use std::io::{self, Write};
use std::path::Path;

/// What each file of the stored night came to, by name: its state, and what was found under each model.
pub struct Expected {
    stored: BTreeMap<String, Outcome>,
    status: u8,
}

#[derive(Clone, PartialEq, Eq)]
struct Outcome {
    state: String,
    found: Vec<String>,
}

impl Outcome {
    /// Of a line of `check --json`.
    fn read(line: &Value) -> Option<(String, Outcome)> {
        let found = match line.get("models") {
            None => Vec::new(),
            Some(models) => models
                .as_object()?
                .iter()
                .map(|(name, found)| Some(format!("{name} {}", found.get("verdict")?.as_str()?)))
                .collect::<Option<_>>()?,
        };
        let outcome = Outcome { state: line.get("state")?.as_str()?.to_string(), found };
        Some((line.get("file")?.as_str()?.to_string(), outcome))
    }

    /// How bad it is under each model: kept, a fault, not judged.
    fn ranks(&self) -> Vec<u8> {
        let rank = |found: &String| {
            if found.ends_with(FOUND[0]) {
                return status::KEPT;
            }
            if found.ends_with(FOUND[4]) {
                return status::UNJUDGED;
            }
            status::FAULTY
        };
        self.found.iter().map(rank).collect()
    }

    fn worst(&self) -> u8 {
        self.ranks().into_iter().max().unwrap_or(status::UNJUDGED)
    }

    fn words(&self) -> String {
        if self.found.is_empty() {
            return self.state.clone();
        }
        self.found.join(", ")
    }
}

impl Expected {
    /// A stored night must have ended, and be about the same models.
    pub fn of(night: &Path, models: &[Memory]) -> Result<Expected, String> {
        let name = night.display();
        let text = std::fs::read_to_string(night).map_err(|error| format!("{name}: unreadable: {error}"))?;
        let (last, lines) = crate::sum::parted(&text);
        let tally = Tally::read(last).ok_or_else(|| format!("{name}: no summary at its end: that run did not end"))?;
        if !tally.is_of(models) {
            return Err(format!("{name}: another night's models: {last}"));
        }
        let outcome = |(i, line): (usize, &str)| {
            serde_json::from_str(line)
                .ok()
                .and_then(|line| Outcome::read(&line))
                .ok_or_else(|| format!("{name}: line {}: not of check --json: {line}", i + 1))
        };
        let stored: Result<BTreeMap<String, Outcome>, String> = lines.enumerate().map(outcome).collect();
        let stored = stored?;
        if stored.len() as u64 != tally.all() {
            return Err(format!("{name}: lines of {} traces, and its summary counts {}", stored.len(), tally.all()));
        }
        Ok(Expected { stored, status: status::KEPT })
    }

    /// A line where a trace came to something else than it did, and where it is new.
    pub fn compare(&mut self, path: &Path, judged: &Judged, out: &mut impl Write) -> io::Result<()> {
        let (name, now) = Outcome::read(&judged.json(path)).expect("a line of check --json");
        let Some(before) = self.stored.remove(&name) else {
            self.status = self.status.max(now.worst());
            return writeln!(out, "new {name}: {}", now.words());
        };
        let pairs: Vec<(u8, u8)> = match before.found.len() == now.found.len() {
            true => before.ranks().into_iter().zip(now.ranks()).collect(),
            false => vec![(before.worst(), now.worst())],
        };
        let word = if pairs.iter().any(|(before, now)| before < now) {
            self.status = self.status.max(now.worst());
            "worse"
        } else if pairs.iter().any(|(before, now)| before > now) {
            "better"
        } else if before != now {
            "other"
        } else {
            return Ok(());
        };
        writeln!(out, "{word} {name}: {}, was {}", now.words(), before.words())
    }

    /// What the stored night has and this one has not was not judged.
    pub fn end(&mut self, out: &mut impl Write) -> io::Result<u8> {
        for (name, before) in &self.stored {
            self.status = status::UNJUDGED;
            writeln!(out, "gone {name}: was {}", before.words())?;
        }
        Ok(self.status)
    }
}
