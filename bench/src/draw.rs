//! Traces drawn by chance. Their threads are numbered without a gap.

use crate::chance::Chance;
use simple::models::{kept, Model};
use simple::rules::{earlier, writes_there};
use simple::{reader, Bools, Record, Table};
use std::collections::BTreeSet;
use std::collections::VecDeque;

const ADDRESSES: usize = 16;
const THREADS: usize = 8;

pub struct Family {
    pub name: &'static str,
    pub draw: fn(&mut Chance, usize, Model) -> Vec<Record>,
}

const VALID: Family = Family { name: "valid", draw: valid };
const CHANGED: Family = Family { name: "one read changed", draw: changed };
const KNOTS: Family = Family { name: "knots", draw: knots };
const PADDED: Family = Family { name: "padded knots", draw: padded };

pub const FAMILIES: [Family; 4] = [VALID, CHANGED, KNOTS, PADDED];

/// Those that have as many records as they are asked for.
pub const FULL: [Family; 3] = [VALID, CHANGED, PADDED];

/// What is measured: half of the traces keep the model, half have one read changed.
pub fn drawn(chance: &mut Chance, records: usize, model: Model) -> Vec<Record> {
    let family = if chance.percent(50) { valid } else { changed };
    family(chance, records, model)
}

pub fn text_of(records: &[Record]) -> Vec<u8> {
    let line = |record: &Record| match *record {
        Record::Load { thread, address, read } => format!("{thread}: M[{address}] == {read}\n"),
        Record::Store { thread, address, written } => format!("{thread}: M[{address}] := {written}\n"),
        Record::Swap { thread, address, read, written } => format!("{thread}: {{ M[{address}] == {read}; M[{address}] := {written} }}\n"),
        Record::Fence { thread } => format!("{thread}: sync\n"),
    };
    records.iter().map(line).collect::<String>().into_bytes()
}

/// Programs of threads on addresses, in a chance text order; nothing has been read yet.
fn programs(chance: &mut Chance, records: usize, threads: &[usize], addresses: &[usize]) -> Vec<Record> {
    let (stores, swaps, fences) = (chance.between(25, 60), *chance.of(&[0, 5, 15]), *chance.of(&[0, 3]));
    let mut values = [0; ADDRESSES];
    let mut record = || {
        let (thread, address, kind) = (*chance.of(threads), *chance.of(addresses), chance.below(100));
        values[address] += 1;
        let written = values[address];
        if kind < stores {
            Record::Store { thread, address, written }
        } else if kind < stores + swaps {
            Record::Swap { thread, address, read: 0, written }
        } else if kind < stores + swaps + fences {
            Record::Fence { thread }
        } else {
            Record::Load { thread, address, read: 0 }
        }
    };
    (0..records).map(|_| record()).collect()
}

/// Runs programs in an order that the model allows and lets every load read what it then has to read. At each step one of the operations that may
/// come is taken: the first in text order, one of the first few, or any.
fn run(chance: &mut Chance, records: &mut [Record], model: Model) {
    let pairs: Bools = kept(records, model);
    let reach = *chance.of(&[1, 3, 10, records.len()]);
    let mut left: Vec<usize> = (0..records.len()).filter(|&x| !records[x].is_fence()).collect();
    let mut latest: [Option<usize>; ADDRESSES] = [None; ADDRESSES];
    while !left.is_empty() {
        let may_come = |y: usize| left.iter().take_while(|&&x| x < y).all(|&x| !pairs.has(x, y));
        let next: Vec<usize> = left.iter().copied().filter(|&y| may_come(y)).take(reach).collect();
        let y = *chance.of(&next);
        let waiting = left.iter().rev().find(|&&x| earlier(records, x, y) && writes_there(records, y, x));
        let address = records[y].address().expect("fences are not run");
        let value = waiting.copied().or(latest[address]).and_then(|x| records[x].written()).unwrap_or(0);
        set_read(&mut records[y], value);
        if records[y].written().is_some() {
            latest[address] = Some(y);
        }
        left.retain(|&x| x != y);
    }
}

fn set_read(record: &mut Record, value: usize) {
    if let Record::Load { read, .. } | Record::Swap { read, .. } = record {
        *read = value;
    }
}

/// A trace that keeps its model.
fn valid(chance: &mut Chance, records: usize, model: Model) -> Vec<Record> {
    let (threads, addresses) = (chance.between(2, THREADS), chance.between(1, ADDRESSES));
    let (threads, addresses) = (&chance.shuffled(threads), &chance.shuffled(ADDRESSES)[..addresses]);
    let mut trace = programs(chance, records, threads, addresses);
    run(chance, &mut trace, model);
    numbered(trace)
}

/// The same, and then one load or swap reads something else that was written to its address, or the first value, or rarely what nobody wrote.
fn changed(chance: &mut Chance, records: usize, model: Model) -> Vec<Record> {
    let mut trace = valid(chance, records, model);
    let reads: Vec<usize> = (0..trace.len()).filter(|&x| trace[x].read().is_some()).collect();
    if !reads.is_empty() {
        let load = *chance.of(&reads);
        let mut values: Vec<usize> =
            (0..trace.len()).filter(|&x| writes_there(&trace, load, x)).filter_map(|x| trace[x].written()).collect();
        values.push(0);
        let value = if chance.percent(2) { 65_535 } else { *chance.of(&values) };
        set_read(&mut trace[load], value);
    }
    trace
}

/// One or two of document 01's KNOT on addresses of their own, mixed or one behind the other: no order under SC and TSO, and mostly no circle.
fn some_knots(chance: &mut Chance, count: usize, threads: &[usize], addresses: &[usize]) -> Vec<Record> {
    let knot = reader::read(include_bytes!("../../tests/traces/knot.txt"), 64).expect("KNOT is good");
    let own: Vec<usize> = knot.iter().filter_map(Record::address).collect::<BTreeSet<_>>().into_iter().collect();
    let copies = addresses.chunks_exact(own.len()).take(count).map(|addresses| {
        let threads: Vec<usize> = chance.shuffled(threads.len()).into_iter().map(|i| threads[i]).collect();
        let place = |address: usize| addresses[own.iter().position(|&a| a == address).expect("an address of KNOT")];
        knot.iter().map(|record| renamed(*record, &threads, place)).collect()
    });
    let copies: Vec<Vec<Record>> = copies.collect();
    if chance.percent(50) {
        merged(chance, copies)
    } else {
        copies.concat()
    }
}

fn knots(chance: &mut Chance, _records: usize, _model: Model) -> Vec<Record> {
    let (threads, addresses) = (chance.shuffled(THREADS), chance.shuffled(ADDRESSES));
    numbered(some_knots(chance, 2, &threads, &addresses))
}

/// Knots in the midst of a run on the two addresses that they leave free, by the two threads that they leave free or, which often closes a circle,
/// by all.
fn padded(chance: &mut Chance, records: usize, model: Model) -> Vec<Record> {
    let (threads, addresses) = (chance.shuffled(THREADS), chance.shuffled(ADDRESSES));
    let (count, free) = (chance.between(1, 2), *chance.of(&[2, 2, THREADS]));
    let knots = some_knots(chance, count, &threads[2..], &addresses[2..]);
    let mut rest = programs(chance, records - knots.len(), &threads[..free], &addresses[..2]);
    run(chance, &mut rest, model);
    numbered(merged(chance, vec![knots, rest]))
}

fn renamed(record: Record, threads: &[usize], place: impl Fn(usize) -> usize) -> Record {
    let thread = threads[record.thread()];
    match record {
        Record::Load { address, read, .. } => Record::Load { thread, address: place(address), read },
        Record::Store { address, written, .. } => Record::Store { thread, address: place(address), written },
        Record::Swap { address, read, written, .. } => Record::Swap { thread, address: place(address), read, written },
        Record::Fence { .. } => Record::Fence { thread },
    }
}

/// Numbers the threads without a gap.
fn numbered(trace: Vec<Record>) -> Vec<Record> {
    let used: BTreeSet<usize> = trace.iter().map(Record::thread).collect();
    let mut threads = [0; THREADS];
    used.into_iter().enumerate().for_each(|(i, thread)| threads[thread] = i);
    trace.into_iter().map(|record| renamed(record, &threads, |address| address)).collect()
}

/// Parts mixed by chance; each stays in its order.
fn merged(chance: &mut Chance, parts: Vec<Vec<Record>>) -> Vec<Record> {
    let mut left: Vec<VecDeque<Record>> = parts.into_iter().map(VecDeque::from).collect();
    let mut records = Vec::new();
    while !left.is_empty() {
        let part = chance.below(left.len());
        match left[part].pop_front() {
            Some(record) => records.push(record),
            None => drop(left.swap_remove(part)),
        }
    }
    records
}
