//! The verdict on a trace under a model, and the judge as an entry of its own; both may be handed anything (numbers 9 and 10).

use crate::orders::{self, First, Judgement};
use crate::rules::{self, Circle};
use crate::trace::{Model, Trace};

#[derive(Clone, Debug, PartialEq, Eq)]
pub enum Verdict {
    NoSource(usize),
    Circle(Circle),
    Order(Vec<usize>),
    NoneLeft,
    /// Not of the document: the search of this program used up its steps.
    NotKnown,
}

/// Steps of the search after which this program says that it does not know.
pub const MOST_STEPS: u64 = 200_000;

pub fn verdict(trace: &Trace, model: u64, most_steps: u64) -> Result<Verdict, u8> {
    let model = good(trace, model)?;
    Ok(verdict_of_good(trace, model, most_steps))
}

pub fn judge(trace: &Trace, model: u64, list: &[usize]) -> Result<bool, u8> {
    let model = good(trace, model)?;
    Ok(orders::judge(trace, model, list))
}

/// The same, and why a list is no order.
pub fn judgement(trace: &Trace, model: u64, list: &[usize]) -> Result<Judgement, u8> {
    let model = good(trace, model)?;
    Ok(orders::judgement(trace, model, list))
}

/// The model, or the lower of 9 and 10 that applies.
pub fn good(trace: &Trace, model: u64) -> Result<Model, u8> {
    let model = Model::numbered(model).ok_or(9)?;
    if trace.well_formed() {
        Ok(model)
    } else {
        Err(10)
    }
}

fn verdict_of_good(trace: &Trace, model: Model, most_steps: u64) -> Verdict {
    if let Some(load) = lowest_without_source(trace) {
        return Verdict::NoSource(load);
    }
    if let Some(circle) = rules::circle(trace, model) {
        return Verdict::Circle(circle);
    }
    match orders::first_order(trace, model, most_steps) {
        First::Order(list) => Verdict::Order(list),
        First::None => Verdict::NoneLeft,
        First::NotKnown => Verdict::NotKnown,
    }
}

pub fn lowest_without_source(trace: &Trace) -> Option<usize> {
    let reads_something = |x: &usize| trace.places[*x].read().is_some() && !trace.reads_first(*x);
    trace.operations().into_iter().filter(reads_something).find(|&load| trace.source(load).is_none())
}
