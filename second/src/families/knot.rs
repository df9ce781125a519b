//! KNOT's shape in many variations: where no circle is forced and yet no order is left, or nearly so.

use super::firsts::{self, text_of};
use super::runs::{records_of, some_value_at};
use crate::chance::Chance;
use crate::machine::{merged, thread_by_thread, Values};
use crate::stated::KNOT;
use crate::trace::{Firsts, Record, BEGINNING, LAST_ADDRESS, LAST_THREAD, LAST_VALUE, MOST_RECORDS};
use std::collections::{BTreeMap, BTreeSet};

pub(super) fn knot(chance: &mut Chance) -> Vec<u8> {
    let firsts = firsts::drawn(chance);
    let mut records = renamed(chance, &firsts, &records_of(KNOT.as_bytes()), 0);
    if chance.percent(15) {
        records = copied(chance, &firsts, records);
    }
    let mut programs = thread_by_thread(chance, &records);
    if chance.percent(40) {
        drop_some(chance, &mut programs);
    }
    if chance.percent(40) {
        soften_fences(chance, &firsts, &mut programs);
    }
    if chance.percent(40) {
        add_some(chance, &firsts, &mut programs);
    }
    let records = if chance.percent(50) { merged(chance, programs) } else { programs.concat() };
    text_of(chance, &firsts, &records[..records.len().min(MOST_RECORDS)])
}

/// Other threads, other addresses, other values, the same shape. What reads 0 reads the first value.
fn renamed(chance: &mut Chance, firsts: &Firsts, records: &[Record], above: u64) -> Vec<Record> {
    let threads = chance.different(8, LAST_THREAD + 1);
    let addresses = chance.different(16, LAST_ADDRESS + 1);
    let mut values = Values::other_than(firsts);
    let mut names: BTreeMap<(u64, u64), u64> = BTreeMap::new();
    let mut name = |chance: &mut Chance, address: u64, value: u64| {
        let address = addresses[address as usize];
        if value == BEGINNING {
            return firsts[address as usize];
        }
        *names.entry((address, value)).or_insert_with(|| (above + values.fresh(chance, address)).min(LAST_VALUE))
    };
    let mut result = Vec::new();
    for record in records {
        let thread = threads[record.thread() as usize];
        result.push(match *record {
            Record::Fence { .. } => Record::Fence { thread },
            Record::Load { address, read, .. } => {
                Record::Load { thread, address: addresses[address as usize], read: name(chance, address, read) }
            }
            Record::Store { address, written, .. } => {
                Record::Store { thread, address: addresses[address as usize], written: name(chance, address, written) }
            }
            Record::Swap { address, read, written, .. } => {
                let (read, written) = (name(chance, address, read), name(chance, address, written));
                Record::Swap { thread, address: addresses[address as usize], read, written }
            }
        });
    }
    result
}

/// One or two more copies, behind or among the first, as far as values stay names.
fn copied(chance: &mut Chance, firsts: &Firsts, first: Vec<Record>) -> Vec<Record> {
    let mut all = vec![first];
    for copy in 0..chance.between(1, 2) as u64 {
        let next = renamed(chance, firsts, &records_of(KNOT.as_bytes()), 1_000 * (copy + 1));
        all.push(next);
    }
    let joined = if chance.percent(50) { all.concat() } else { merged(chance, all) };
    let mut values: BTreeSet<_> = firsts.iter().enumerate().map(|(address, &value)| (Some(address as u64), Some(value))).collect();
    joined.into_iter().filter(|r| r.written().is_none() || values.insert((r.address(), r.written()))).collect()
}

fn drop_some(chance: &mut Chance, programs: &mut [Vec<Record>]) {
    for _ in 0..chance.between(1, 2) {
        let program = chance.below(programs.len());
        if !programs[program].is_empty() {
            let place = chance.below(programs[program].len());
            programs[program].remove(place);
        }
    }
}

/// A fence goes, or becomes a swap at an address that may be nobody else's.
fn soften_fences(chance: &mut Chance, firsts: &Firsts, programs: &mut [Vec<Record>]) {
    let mut values = values_of(firsts, programs);
    for record in programs.iter_mut().flatten() {
        if let Record::Fence { thread } = *record {
            let address = chance.below(LAST_ADDRESS as usize + 1) as u64;
            let read = firsts[address as usize];
            match chance.below(3) {
                0 => *record = Record::Swap { thread, address, read, written: values.fresh(chance, address) },
                1 => *record = Record::Load { thread, address, read },
                _ => {}
            }
        }
    }
}

fn values_of(firsts: &Firsts, programs: &[Vec<Record>]) -> Values {
    let mut values = Values::other_than(firsts);
    for record in programs.iter().flatten() {
        if let (Some(address), Some(written)) = (record.address(), record.written()) {
            values.note(address, written);
        }
    }
    values
}

/// Loads of what is there, stores of new values, fences; in old threads and in new ones.
fn add_some(chance: &mut Chance, firsts: &Firsts, programs: &mut Vec<Vec<Record>>) {
    let mut values = values_of(firsts, programs);
    if chance.percent(30) {
        programs.push(Vec::new());
    }
    for _ in 0..chance.between(1, 6) {
        let flat = programs.concat();
        let which = chance.below(programs.len());
        let spare = chance.below(LAST_THREAD as usize + 1) as u64;
        let thread = programs[which].first().map_or(spare, Record::thread);
        let address = chance.below(LAST_ADDRESS as usize + 1) as u64;
        let record = match chance.below(5) {
            0 => Record::Fence { thread },
            1 => Record::Store { thread, address, written: values.fresh(chance, address) },
            2 => Record::Swap {
                thread,
                address,
                read: some_value_at(chance, firsts, &flat, address),
                written: values.fresh(chance, address),
            },
            _ => Record::Load { thread, address, read: some_value_at(chance, firsts, &flat, address) },
        };
        let place = chance.between(0, programs[which].len());
        programs[which].insert(place, record);
    }
}
