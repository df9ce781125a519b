//! A faulty trace cut down, as request 9 says it: nothing is remembered from one look to the next.

use crate::orders::{first_order, First};
use crate::rules;
use crate::trace::{Firsts, Model, Record, Trace};
use crate::verdict::lowest_without_source;

/// What is left, each record with its old number; memory begins as it did.
#[derive(Clone, Debug, PartialEq, Eq)]
pub struct Part {
    pub firsts: Firsts,
    pub records: Vec<(usize, Record)>,
}

impl Part {
    pub fn whole(trace: &Trace) -> Part {
        Part { firsts: trace.firsts, records: trace.records().iter().copied().enumerate().collect() }
    }

    /// What is left as a trace of its own.
    pub fn trace(&self) -> Trace {
        let records: Vec<Record> = self.records.iter().map(|(_, record)| *record).collect();
        Trace::with(self.firsts, &records)
    }

    pub fn olds(&self) -> Vec<usize> {
        self.records.iter().map(|(old, _)| *old).collect()
    }
}

#[derive(Clone, Debug, PartialEq, Eq)]
pub enum Smaller {
    NoSource(usize),
    NothingWrong,
    Cut(Part),
    /// Not of the document: a search of this program used up its steps.
    NotKnown,
}

pub fn smaller(trace: &Trace, model: Model, most_steps: u64) -> Smaller {
    if let Some(load) = lowest_without_source(trace) {
        return Smaller::NoSource(load);
    }
    let mut part = Part::whole(trace);
    match faulty(&part, model, most_steps) {
        None => return Smaller::NotKnown,
        Some(false) => return Smaller::NothingWrong,
        Some(true) => {}
    }
    loop {
        match lowest_that_may_go(&part, model, most_steps) {
            None => return Smaller::NotKnown,
            Some(None) => return Smaller::Cut(part),
            Some(Some(left)) => part = left,
        }
    }
}

/// What the lowest record leaves whose removal keeps the fault, if there is one.
fn lowest_that_may_go(part: &Part, model: Model, most_steps: u64) -> Option<Option<Part>> {
    for place in 0..part.records.len() {
        let left = without(part, place);
        if faulty(&left, model, most_steps)? {
            return Some(Some(left));
        }
    }
    Some(None)
}

/// One removal: a record, then whoever lost its source with what went, and so on.
pub fn without(part: &Part, place: usize) -> Part {
    let before = part.trace();
    let olds = part.olds();
    let source = |old: usize| {
        let load = olds.iter().position(|&number| number == old).expect("it was there");
        before.source(load).map(|source| olds[source])
    };
    let mut left = part.clone();
    left.records.remove(place);
    loop {
        let there = left.olds();
        left.records.retain(|(old, _)| source(*old).is_none_or(|source| there.contains(&source)));
        if left.records.len() == there.len() {
            return left;
        }
    }
}

/// Whether no valid order exists; a circle of forced edges is enough to know it.
pub fn faulty(part: &Part, model: Model, most_steps: u64) -> Option<bool> {
    let trace = part.trace();
    match first_order(&trace, model, most_steps) {
        First::Order(_) => Some(false),
        First::None => Some(true),
        First::NotKnown => rules::circle(&trace, model).map(|_| true),
    }
}
