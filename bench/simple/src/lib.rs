//! The checks of document 01, under four models, written as one writes them when only the answer counts: read the text, draw the edges of the
//! rules round by round, look for a circle, then try the operations one after the other. The proved library is measured against it; the two have
//! nothing in common but the documents.
//!
//! The tables of edges are [`Bools`], a list of lists, or [`Words`], rows of bits; all else is the same code.

pub mod circle;
pub mod judge;
pub mod models;
pub mod reader;
pub mod rules;
pub mod search;
pub mod session;
pub mod table;

pub use models::Model;
pub use reader::{Record, Refusal};
pub use table::{Bools, Table, Words};

use std::fmt;

/// What the memory did, in record numbers.
#[derive(Clone, Debug, PartialEq, Eq)]
pub enum Verdict {
    NoSource(usize),
    Circle {
        operations: Vec<usize>,
        rules: Vec<u8>,
    },
    Order(Vec<usize>),
    NoneLeft,
    /// The search was stopped by its limit.
    Undecided,
}

/// The verdict on records under a model, and the steps of the plain search, which makes at most so many.
pub fn verdict<T: Table>(records: &[Record], model: Model, limit: u64) -> (Verdict, u64) {
    let kept: T = models::kept(records, model);
    let sources: Vec<Option<usize>> = (0..records.len()).map(|load| rules::source(records, load)).collect();
    if let Some(load) = rules::missing(records, &sources) {
        return (Verdict::NoSource(load), 0);
    }
    let closed = rules::rounds(records, &kept, &sources);
    if let Some(operations) = circle::shortest(&closed) {
        let rules = circle::rules(records, &kept, &sources, &closed, &operations);
        return (Verdict::Circle { operations, rules }, 0);
    }
    let found = search::plain(records, &kept, limit);
    match found.order {
        Some(order) => (Verdict::Order(order), found.steps),
        None if found.ended => (Verdict::NoneLeft, found.steps),
        None => (Verdict::Undecided, found.steps),
    }
}

/// As the program at the bench prints it, behind the model's name.
impl fmt::Display for Verdict {
    fn fmt(&self, f: &mut fmt::Formatter<'_>) -> fmt::Result {
        match self {
            Verdict::NoSource(load) => write!(f, "no order, no source {load}"),
            Verdict::Circle { operations, rules } => {
                write!(f, "no order, circle")?;
                operations.iter().try_for_each(|x| write!(f, " {x}"))?;
                write!(f, " by")?;
                rules.iter().try_for_each(|rule| write!(f, " {rule}"))
            }
            Verdict::Order(operations) => {
                write!(f, "order")?;
                operations.iter().try_for_each(|x| write!(f, " {x}"))
            }
            Verdict::NoneLeft => write!(f, "no order, none left"),
            Verdict::Undecided => write!(f, "undecided"),
        }
    }
}
