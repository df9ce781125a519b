//! Texts that the reader takes: runs of the simulated machines, runs with changed reads, traces by chance.

use super::firsts::{self, text_of};
use super::{LONGEST, USUAL};
use crate::chance::Chance;
use crate::machine::{rewritten, run, run_under, Shape, Values};
use crate::reader;
use crate::stated::STATED;
use crate::trace::{Firsts, Model, Record, BEGINNING, LAST_ADDRESS, LAST_THREAD, LAST_VALUE, MOST_RECORDS};

pub(super) fn stated(chance: &mut Chance) -> Vec<u8> {
    let text = chance.of(&STATED).text.as_bytes();
    if chance.percent(50) {
        return text.to_vec();
    }
    let records = rewritten(chance, records_of(text));
    let firsts = firsts::drawn(chance);
    text_of(chance, &firsts, &moved(&firsts, &records))
}

/// The same shape on other first values: what reads 0 reads the first value, and whoever writes or reads that one has another instead.
fn moved(firsts: &Firsts, records: &[Record]) -> Vec<Record> {
    // Two that are exchanged: the first value, and 0.
    let other = |address: u64, value: u64| match value {
        BEGINNING => firsts[address as usize],
        value if value == firsts[address as usize] => BEGINNING,
        value => value,
    };
    let each = |record: &Record| match *record {
        Record::Load { thread, address, read } => Record::Load { thread, address, read: other(address, read) },
        Record::Store { thread, address, written } => Record::Store { thread, address, written: other(address, written) },
        Record::Swap { thread, address, read, written } => {
            Record::Swap { thread, address, read: other(address, read), written: other(address, written) }
        }
        Record::Fence { thread } => Record::Fence { thread },
    };
    records.iter().map(each).collect()
}

pub(super) fn records_of(text: &[u8]) -> Vec<Record> {
    reader::read(text).expect("a good text").records().to_vec()
}

fn shape(chance: &mut Chance) -> Shape {
    let records = usual_length(chance);
    shape_of(chance, records)
}

fn usual_length(chance: &mut Chance) -> usize {
    match chance.below(10) {
        0..=3 => chance.between(1, 10),
        4..=6 => chance.between(9, 20),
        7..=8 => chance.between(21, 40),
        _ => chance.between(41, USUAL),
    }
}

fn shape_of(chance: &mut Chance, records: usize) -> Shape {
    let threads = chance.between(1, if records < 8 { 4 } else { 8 });
    let addresses = if chance.percent(70) { chance.between(1, 4) } else { chance.between(1, 16) };
    let stores = *chance.of(&[20, 30, 40, 50]);
    Shape {
        records,
        threads: chance.different(threads, LAST_THREAD + 1),
        addresses: chance.different(addresses, LAST_ADDRESS + 1),
        stores,
        late_stores: *chance.of(&[10, stores, stores]),
        swaps: *chance.of(&[0, 0, 5, 15, 30]),
        fences: *chance.of(&[0, 5, 10]),
        drains: *chance.of(&[0, 5, 20, 40]),
        own: *chance.of(&[0, 30]),
        home: *chance.of(&[0, 0, 80]),
        firsts: firsts::drawn(chance),
    }
}

/// What a run leaves: its first values and its records.
struct Ran {
    firsts: Firsts,
    records: Vec<Record>,
}

impl Ran {
    fn under(chance: &mut Chance, shape: &Shape, model: Model) -> Ran {
        let records = run_under(chance, shape, model);
        Ran { firsts: shape.firsts, records: rewritten(chance, records) }
    }

    fn text(&self, chance: &mut Chance) -> Vec<u8> {
        text_of(chance, &self.firsts, &self.records)
    }

    fn changed(mut self, chance: &mut Chance) -> Ran {
        for _ in 0..chance.between(1, 2) {
            let reading: Vec<usize> = (0..self.records.len()).filter(|&x| self.records[x].read().is_some()).collect();
            if !reading.is_empty() {
                let x = *chance.of(&reading);
                let address = self.records[x].address().expect("a load has an address");
                let value = some_value_at(chance, &self.firsts, &self.records, address);
                self.records[x] = reading_of(self.records[x], value);
            }
        }
        self
    }
}

fn ran(chance: &mut Chance, model: Model) -> Ran {
    let shape = shape(chance);
    Ran::under(chance, &shape, model)
}

pub(super) fn sc(chance: &mut Chance) -> Vec<u8> {
    ran(chance, Model::Sc).text(chance)
}

pub(super) fn tso(chance: &mut Chance) -> Vec<u8> {
    ran(chance, Model::Tso).text(chance)
}

pub(super) fn pso(chance: &mut Chance) -> Vec<u8> {
    ran(chance, Model::Pso).text(chance)
}

pub(super) fn wmo(chance: &mut Chance) -> Vec<u8> {
    ran(chance, Model::Wmo).text(chance)
}

pub(super) fn weaker_changed(chance: &mut Chance) -> Vec<u8> {
    let model = *chance.of(&[Model::Pso, Model::Wmo]);
    ran(chance, model).changed(chance).text(chance)
}

fn ran_long(chance: &mut Chance) -> Ran {
    let records = chance.between(USUAL + 1, LONGEST);
    let (shape, model) = (shape_of(chance, records), *chance.of(Model::all()));
    Ran::under(chance, &shape, model)
}

pub(super) fn long(chance: &mut Chance) -> Vec<u8> {
    ran_long(chance).text(chance)
}

pub(super) fn long_changed(chance: &mut Chance) -> Vec<u8> {
    ran_long(chance).changed(chance).text(chance)
}

/// Few threads, few addresses, many stores that stay in their buffers: here the models often part.
pub(super) fn weak(chance: &mut Chance) -> Vec<u8> {
    let (threads, addresses) = (*chance.of(&[2, 2, 3, 4]), *chance.of(&[2, 2, 3]));
    let shape = Shape {
        records: chance.between(6, 18),
        threads: chance.different(threads, LAST_THREAD + 1),
        addresses: chance.different(addresses, LAST_ADDRESS + 1),
        stores: chance.between(40, 80),
        late_stores: chance.between(5, 30),
        swaps: *chance.of(&[0, 0, 0, 8]),
        fences: *chance.of(&[0, 0, 8]),
        drains: *chance.of(&[0, 0, 4, 8, 15]),
        own: *chance.of(&[0, 15, 40]),
        home: *chance.of(&[50, 80, 100]),
        firsts: firsts::drawn(chance),
    };
    let model = *chance.of(&[Model::Tso, Model::Tso, Model::Pso, Model::Wmo]);
    let ran = Ran::under(chance, &shape, model);
    if chance.percent(33) { ran.changed(chance) } else { ran }.text(chance)
}

pub(super) fn sc_changed(chance: &mut Chance) -> Vec<u8> {
    ran(chance, Model::Sc).changed(chance).text(chance)
}

pub(super) fn tso_changed(chance: &mut Chance) -> Vec<u8> {
    ran(chance, Model::Tso).changed(chance).text(chance)
}

fn reading_of(record: Record, value: u64) -> Record {
    match record {
        Record::Load { thread, address, .. } => Record::Load { thread, address, read: value },
        Record::Swap { thread, address, written, .. } => Record::Swap { thread, address, read: value, written },
        other => other,
    }
}

/// The first value, or one that somebody writes there; seldom one that nobody writes, or 0, which used to be the first everywhere.
pub(super) fn some_value_at(chance: &mut Chance, firsts: &Firsts, records: &[Record], address: u64) -> u64 {
    let mut choices: Vec<u64> = records.iter().filter(|r| r.address() == Some(address)).filter_map(Record::written).collect();
    choices.push(firsts[address as usize]);
    match chance.below(100) {
        0..=2 => chance.below(LAST_VALUE as usize + 1) as u64,
        3 | 4 => BEGINNING,
        _ => *chance.of(&choices),
    }
}

/// Operations by chance; then every read is drawn from what is written at its address.
fn by_chance(chance: &mut Chance, operations: usize, threads: usize, addresses: usize) -> Vec<u8> {
    let threads = chance.different(threads, LAST_THREAD + 1);
    let addresses = chance.different(addresses, LAST_ADDRESS + 1);
    let (stores, swaps, fences) = (*chance.of(&[30, 40, 50]), *chance.of(&[0, 0, 10, 30]), *chance.of(&[0, 0, 10, 20]));
    let firsts = firsts::drawn(chance);
    let mut values = Values::other_than(&firsts);
    let mut records = Vec::new();
    let mut placed = 0;
    while placed < operations && records.len() < MOST_RECORDS {
        let thread = *chance.of(&threads);
        if chance.percent(fences) {
            records.push(Record::Fence { thread });
            continue;
        }
        placed += 1;
        let address = *chance.of(&addresses);
        let kind = chance.below(100);
        records.push(if kind < stores {
            Record::Store { thread, address, written: values.fresh(chance, address) }
        } else if kind < stores + swaps {
            Record::Swap { thread, address, read: BEGINNING, written: values.fresh(chance, address) }
        } else {
            Record::Load { thread, address, read: BEGINNING }
        });
    }
    let (beginnings, nobody) = (*chance.of(&[0, 30, 60]), chance.percent(8));
    for x in 0..records.len() {
        if let (Some(_), Some(address)) = (records[x].read(), records[x].address()) {
            let read = if nobody {
                some_value_at(chance, &firsts, &records, address)
            } else {
                value_of_others(chance, &firsts, &records, x, beginnings)
            };
            records[x] = reading_of(records[x], read);
        }
    }
    text_of(chance, &firsts, &records)
}

/// The first value at least so many times in a hundred, otherwise what someone else writes there: every read has a source.
fn value_of_others(chance: &mut Chance, firsts: &Firsts, records: &[Record], load: usize, beginnings: usize) -> u64 {
    let first = firsts[records[load].address().expect("a load has an address") as usize];
    let writes = |x: &usize| *x != load && records[*x].address() == records[load].address();
    let mut choices: Vec<u64> = (0..records.len()).filter(writes).filter_map(|x| records[x].written()).collect();
    choices.push(first);
    if chance.percent(beginnings) {
        first
    } else {
        *chance.of(&choices)
    }
}

pub(super) fn dense(chance: &mut Chance) -> Vec<u8> {
    let (operations, threads, addresses) = (chance.between(2, 8), chance.between(1, 4), chance.between(1, 2));
    by_chance(chance, operations, threads, addresses)
}

pub(super) fn middle(chance: &mut Chance) -> Vec<u8> {
    let (operations, threads, addresses) = (chance.between(9, 16), chance.between(2, 6), chance.between(1, 3));
    by_chance(chance, operations, threads, addresses)
}

/// Many writers of few addresses, whose order comes out only bit by bit: circles that take several rounds, and values that fit nearly.
pub(super) fn rounds(chance: &mut Chance) -> Vec<u8> {
    let (threads, addresses) = (chance.between(3, 7), chance.between(1, 3));
    let stores = chance.between(25, 45);
    let shape = Shape {
        records: chance.between(10, 32),
        threads: chance.different(threads, LAST_THREAD + 1),
        addresses: chance.different(addresses, LAST_ADDRESS + 1),
        stores,
        late_stores: stores,
        swaps: *chance.of(&[0, 0, 5, 20]),
        fences: *chance.of(&[0, 5]),
        drains: *chance.of(&[20, 40, 60]),
        own: 0,
        home: 0,
        firsts: firsts::drawn(chance),
    };
    let mut records = run(chance, &shape, true);
    for _ in 0..chance.between(1, 2) {
        change_to_neighbour(chance, &mut records);
    }
    let records = rewritten(chance, records);
    text_of(chance, &shape.firsts, &records)
}

/// The records stand as they were run, so a value written shortly before or after is one that the load just missed.
fn change_to_neighbour(chance: &mut Chance, records: &mut [Record]) {
    let reading: Vec<usize> = (0..records.len()).filter(|&x| records[x].read().is_some()).collect();
    if reading.is_empty() {
        return;
    }
    let load = *chance.of(&reading);
    let writes = |x: &usize| *x != load && records[*x].address() == records[load].address() && records[*x].written().is_some();
    let mut near: Vec<usize> = (0..records.len()).filter(writes).collect();
    near.sort_by_key(|x| x.abs_diff(load));
    near.truncate(4);
    if !near.is_empty() {
        let value = records[*chance.of(&near)].written().expect("a writer writes");
        records[load] = reading_of(records[load], value);
    }
}
