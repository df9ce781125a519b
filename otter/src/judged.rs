//! What the library says of one trace, in words and for machines.

use crate::input::{self, Turned};
use crate::meaning::{meaning, refused};
use crate::memory::Memory;
use serde_json::{json, Map, Value};
use std::path::Path;
use wheelotter::{limited, verdict, Limited, Refusal, Verdict};

/// What became of a trace as a whole. The order is that of the counts in a summary.
#[derive(Clone, Copy, Debug, PartialEq, Eq)]
pub enum State {
    /// It has an order under each model that was asked.
    Kept,
    /// Under one of them it has none.
    Faulty,
    /// It is not faulty, and under one of them the step limit was too low.
    Undecided,
    /// The text is turned back.
    Refused,
    /// The file could not be read.
    Unreadable,
}

pub const STATES: [State; 5] = [State::Kept, State::Faulty, State::Undecided, State::Refused, State::Unreadable];

impl State {
    pub fn name(self) -> &'static str {
        ["kept", "faulty", "undecided", "refused", "unreadable"][self as usize]
    }
}

/// How often each of these was found is counted for every model.
pub const FOUND: [&str; 5] = ["order", "circle", "none left", "no source", "undecided"];

/// What was found under one model.
#[derive(Clone, Debug, PartialEq, Eq)]
pub enum Found {
    Told(Verdict),
    Undecided,
}

impl Found {
    /// Its place in FOUND.
    pub fn kind(&self) -> usize {
        match self {
            Found::Told(Verdict::Order(_)) => 0,
            Found::Told(Verdict::Circle { .. }) => 1,
            Found::Told(Verdict::NoneLeft) => 2,
            Found::Told(Verdict::NoSource(_)) => 3,
            Found::Undecided => 4,
        }
    }

    fn state(&self) -> State {
        [State::Kept, State::Faulty, State::Faulty, State::Faulty, State::Undecided][self.kind()]
    }

    /// With the numbers of the records and rules, as the program at the bench writes them.
    pub fn whole(&self) -> String {
        let name = FOUND[self.kind()];
        match self {
            Found::Told(Verdict::Order(order)) => format!("{name}{}", listed(order)),
            Found::Told(Verdict::Circle { operations, rules }) => format!("{name}{} by{}", listed(operations), listed(rules)),
            Found::Told(Verdict::NoSource(load)) => format!("{name} {load}"),
            _ => name.to_string(),
        }
    }

    fn json(&self) -> Value {
        let name = FOUND[self.kind()];
        match self {
            Found::Told(Verdict::Order(order)) => json!({"verdict": name, "order": order}),
            Found::Told(Verdict::Circle { operations, rules }) => json!({"verdict": name, "circle": operations, "by": rules}),
            Found::Told(Verdict::NoSource(load)) => json!({"verdict": name, "record": load}),
            _ => json!({ "verdict": name }),
        }
    }
}

/// Each number with a space before it.
pub fn listed<T: std::fmt::Display>(numbers: &[T]) -> String {
    numbers.iter().map(|number| format!(" {number}")).collect()
}

/// One trace: what was found under each model, or why it was not judged.
#[derive(Clone, Debug, PartialEq, Eq)]
pub enum Judged {
    Found(Vec<(Memory, Found)>),
    Refused { words: String, number: u8, line: usize, part: String, meaning: &'static str },
    Unreadable(String),
}

/// What the library says of a text under some models, at most so many steps each.
fn found<'a>(text: &'a [u8], models: &[Memory], steps: Option<u64>) -> Result<Vec<(Memory, Found)>, Refusal<'a>> {
    let under = |memory: &Memory| {
        let found = match steps {
            None => Found::Told(verdict(text, memory.model())?),
            Some(steps) => match limited(text, memory.model(), steps)? {
                Limited::Decided(verdict, _) => Found::Told(verdict),
                Limited::Undecided => Found::Undecided,
            },
        };
        Ok((*memory, found))
    };
    models.iter().map(under).collect()
}

impl Judged {
    fn refused(turned: Turned) -> Judged {
        Judged::Refused {
            words: refused(&turned),
            number: turned.answer as u8,
            line: turned.line,
            part: String::from_utf8_lossy(&turned.part).into_owned(),
            meaning: meaning(turned.answer),
        }
    }

    pub fn text(text: &[u8], models: &[Memory], steps: Option<u64>) -> Judged {
        found(text, models, steps).map_or_else(|refusal| Judged::refused(refusal.into()), Judged::Found)
    }

    /// With the text of the trace; none where it could not be read.
    pub fn file(path: &Path, models: &[Memory], steps: Option<u64>) -> (Judged, Vec<u8>) {
        let bytes = match input::read(path) {
            Ok(bytes) => bytes,
            Err(error) => return (Judged::Unreadable(error.to_string()), Vec::new()),
        };
        match input::text(bytes) {
            Err(turned) => (Judged::refused(turned), Vec::new()),
            Ok(text) => (Judged::text(&text, models, steps), text),
        }
    }

    /// A fault under one model is a fault, whatever is undecided under another.
    pub fn state(&self) -> State {
        match self {
            Judged::Unreadable(_) => State::Unreadable,
            Judged::Refused { .. } => State::Refused,
            Judged::Found(found) => {
                let some = |state: State| found.iter().any(|(_, found)| found.state() == state).then_some(state);
                some(State::Faulty).or(some(State::Undecided)).unwrap_or(State::Kept)
            }
        }
    }

    /// `SC circle, TSO order`, or with the numbers; or why it was not judged.
    pub fn words(&self, long: bool) -> String {
        match self {
            Judged::Unreadable(error) => format!("unreadable: {error}"),
            Judged::Refused { words, .. } => words.clone(),
            Judged::Found(found) => {
                let of = |(memory, found): &(Memory, Found)| match long {
                    true => format!("{} {}", memory.name(), found.whole()),
                    false => format!("{} {}", memory.name(), FOUND[found.kind()]),
                };
                found.iter().map(of).collect::<Vec<String>>().join(", ")
            }
        }
    }

    /// One object: the file, what became of it, and what was found.
    pub fn json(&self, path: &Path) -> Value {
        let head = json!({"file": path.to_string_lossy(), "state": self.state().name()});
        let more = match self {
            Judged::Unreadable(error) => json!({ "error": error }),
            Judged::Refused { number, line, part, meaning, .. } => {
                json!({"number": number, "line": line, "meaning": meaning, "part": part})
            }
            Judged::Found(found) => {
                let models: Map<String, Value> = found.iter().map(|(memory, found)| (memory.name().to_string(), found.json())).collect();
                json!({ "models": models })
            }
        };
        joined(head, more)
    }
}

/// Two objects as one.
fn joined(head: Value, more: Value) -> Value {
    match (head, more) {
        (Value::Object(mut head), Value::Object(more)) => {
            head.extend(more);
            Value::Object(head)
        }
        (head, _) => head,
    }
}
