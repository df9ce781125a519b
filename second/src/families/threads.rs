//! Threads numbered without gaps, mostly: a text that skips one is turned back, whatever else it could show.

use crate::chance::Chance;
use crate::trace::{Record, LAST_THREAD};
use std::collections::BTreeSet;

/// The same programs on other cores: those that appear are the lowest there are, in any order. Seldom they stay as they were drawn.
pub(super) fn numbered(chance: &mut Chance, records: &[Record]) -> Vec<Record> {
    if chance.percent(6) {
        return records.to_vec();
    }
    let appear: Vec<u64> = records.iter().map(Record::thread).collect::<BTreeSet<_>>().into_iter().collect();
    let names = chance.different(appear.len(), appear.len() as u64);
    let name = |thread: u64| names[appear.binary_search(&thread).expect("it appears")];
    records.iter().map(|record| on(record, name(record.thread()))).collect()
}

fn on(record: &Record, thread: u64) -> Record {
    match *record {
        Record::Load { address, read, .. } => Record::Load { thread, address, read },
        Record::Store { address, written, .. } => Record::Store { thread, address, written },
        Record::Swap { address, read, written, .. } => Record::Swap { thread, address, read, written },
        Record::Fence { .. } => Record::Fence { thread },
    }
}

/// A fence of every thread, so that no other line has to be of a certain one; they may stand anywhere behind the init lines.
pub(super) fn all() -> Vec<String> {
    (0..=LAST_THREAD).map(|thread| format!("{thread}: sync")).collect()
}
