//! The four models: which pairs of program order each keeps.

use crate::{Record, Table};

#[derive(Clone, Copy, Debug, PartialEq, Eq, PartialOrd, Ord)]
pub enum Model {
    Sc = 1,
    Tso = 2,
    Pso = 3,
    Wmo = 4,
}

pub const MODELS: [Model; 4] = [Model::Sc, Model::Tso, Model::Pso, Model::Wmo];

impl Model {
    pub fn name(self) -> &'static str {
        ["SC", "TSO", "PSO", "WMO"][self as usize - 1]
    }

    /// Whether two operations of a thread with no fence between them stay in their order.
    fn keeps(self, first: &Record, second: &Record) -> bool {
        let store = matches!(first, Record::Store { .. });
        let load = matches!(second, Record::Load { .. });
        let one = first.address() == second.address();
        match self {
            Model::Sc => true,
            Model::Tso => !(store && load),
            Model::Pso => !store || (!load && one),
            Model::Wmo => one && !(store && load),
        }
    }
}

/// The kept pairs of all records.
pub fn kept<T: Table>(records: &[Record], model: Model) -> T {
    let mut pairs = T::empty(records.len());
    for x in 0..records.len() {
        let mut fenced = false;
        for y in x + 1..records.len() {
            if records[x].is_fence() || records[x].thread() != records[y].thread() {
                continue;
            }
            if records[y].is_fence() {
                fenced = true;
            } else if fenced || model.keeps(&records[x], &records[y]) {
                pairs.put(x, y);
            }
        }
    }
    pairs
}
