//! Simulated machines whose traces keep their model by construction. Their memory starts at the first values.
//!
//! SC: one memory, each operation at once. TSO: each core has a buffer of its stores, first in first out; a load looks into its own
//! buffer first; swaps and fences wait for their own buffer to be empty. PSO: the same, but a core has such a buffer for each address, and a swap
//! waits for that of its own address only. The order in which loads and swaps are done and stores reach memory is then a valid order: of program
//! order only "plain store, later plain load" can be turned round, and under PSO "plain store, later write elsewhere", no fence between.
//!
//! WMO: a core begins its operations in program order and does them when it likes, but one address's in turn, and none across a fence; a load may
//! take its value from the newest store of its core to its address that was begun before it and is not done. The order in which they are done is
//! a valid order.

use crate::chance::Chance;
use crate::trace::{Firsts, Model, Record, LAST_VALUE};
use std::collections::{BTreeMap, BTreeSet, VecDeque};

/// What a chance program looks like.
pub struct Shape {
    pub records: usize,
    pub threads: Vec<u64>,
    pub addresses: Vec<u64>,
    /// Times in a hundred, each; the rest are loads.
    pub stores: usize,
    /// Instead of `stores`, in the second half of the run: few, and the run ends with loads while stores still wait.
    pub late_stores: usize,
    pub swaps: usize,
    pub fences: usize,
    /// Times in a hundred that a step drains a buffer. At 0 they are drained only where they must be.
    pub drains: usize,
    /// Times in a hundred that a step goes to an address that waits in the thread's own buffer, if there is one.
    pub own: usize,
    /// Times in a hundred that a store goes to the thread's home, an address that it seldom shares with others. Threads that store all
    /// over see mostly their own values, and then a TSO run is seldom anything that SC forbids.
    pub home: usize,
    pub firsts: Firsts,
}

/// Values that were not written yet, address by address, and are not its first.
pub struct Values {
    used: BTreeSet<(u64, u64)>,
}

impl Values {
    pub fn other_than(firsts: &Firsts) -> Values {
        Values { used: firsts.iter().enumerate().map(|(address, &value)| (address as u64, value)).collect() }
    }

    /// Mostly low numbers, at times the highest ones, or 0.
    pub fn fresh(&mut self, chance: &mut Chance, address: u64) -> u64 {
        loop {
            let value = match chance.below(20) {
                0 => LAST_VALUE - chance.below(70) as u64,
                1 => 1 + chance.below(LAST_VALUE as usize) as u64,
                2 => 0,
                _ => 1 + chance.below(80) as u64,
            };
            if self.used.insert((address, value)) {
                return value;
            }
        }
    }

    pub fn note(&mut self, address: u64, value: u64) {
        self.used.insert((address, value));
    }
}

/// What all but WMO's have: buffers of stores, which are empty after every step under SC.
struct Machine {
    model: Model,
    memory: Firsts,
    buffers: BTreeMap<u64, VecDeque<(u64, u64)>>,
}

impl Machine {
    /// Under PSO the oldest of some address; otherwise the oldest of all.
    fn drain_one(&mut self, chance: &mut Chance, thread: u64) -> bool {
        let buffer = self.buffers.entry(thread).or_default();
        let place = match self.model {
            Model::Pso if !buffer.is_empty() => {
                let address = buffer[chance.below(buffer.len())].0;
                buffer.iter().position(|(to, _)| *to == address)
            }
            _ => Some(0),
        };
        match place.and_then(|place| buffer.remove(place)) {
            Some((address, value)) => {
                self.memory[address as usize] = value;
                true
            }
            None => false,
        }
    }

    fn drain_all(&mut self, chance: &mut Chance, thread: u64) {
        while self.drain_one(chance, thread) {}
    }

    /// What a swap at this address waits for.
    fn drain_for_swap(&mut self, chance: &mut Chance, thread: u64, address: u64) {
        if self.model != Model::Pso {
            return self.drain_all(chance, thread);
        }
        let buffer = self.buffers.entry(thread).or_default();
        let newest = buffer.iter().rev().find(|(to, _)| *to == address).map(|(_, value)| *value);
        buffer.retain(|(to, _)| *to != address);
        if let Some(value) = newest {
            self.memory[address as usize] = value;
        }
    }

    fn load(&self, thread: u64, address: u64) -> u64 {
        let own = self.buffers.get(&thread).and_then(|buffer| buffer.iter().rev().find(|(to, _)| *to == address));
        own.map_or(self.memory[address as usize], |&(_, value)| value)
    }

    fn waiting(&self, thread: u64) -> Vec<u64> {
        self.buffers.get(&thread).into_iter().flatten().map(|&(address, _)| address).collect()
    }
}

/// A trace of a run under SC or TSO, in the order in which the operations were begun.
pub fn run(chance: &mut Chance, shape: &Shape, buffered: bool) -> Vec<Record> {
    run_under(chance, shape, if buffered { Model::Tso } else { Model::Sc })
}

/// The same under any model.
pub fn run_under(chance: &mut Chance, shape: &Shape, model: Model) -> Vec<Record> {
    if model == Model::Wmo {
        return run_wmo(chance, shape);
    }
    let mut machine = Machine { model, memory: shape.firsts, buffers: BTreeMap::new() };
    let mut values = Values::other_than(&shape.firsts);
    let mut records = Vec::new();
    while records.len() < shape.records {
        if chance.percent(shape.drains) {
            let thread = *chance.of(&shape.threads);
            machine.drain_one(chance, thread);
            continue;
        }
        let thread = *chance.of(&shape.threads);
        let kind = kind(chance, shape, records.len());
        let address = some_address(chance, shape, &machine.waiting(thread), &kind, thread);
        let record = step(chance, kind, &mut machine, &mut values, thread, address);
        records.push(record);
        if model == Model::Sc {
            machine.drain_all(chance, thread);
        }
    }
    records
}

/// What a read says while it is not done.
const NOT_YET: u64 = 0;

/// WMO's machine: for each core the records that were begun and not yet done. A read is settled when it is done.
struct Wmo {
    memory: Firsts,
    records: Vec<Record>,
    begun: BTreeMap<u64, Vec<usize>>,
}

fn run_wmo(chance: &mut Chance, shape: &Shape) -> Vec<Record> {
    let mut machine = Wmo { memory: shape.firsts, records: Vec::new(), begun: BTreeMap::new() };
    let mut values = Values::other_than(&shape.firsts);
    while machine.records.len() < shape.records {
        let thread = *chance.of(&shape.threads);
        if chance.percent(shape.drains.max(5)) {
            machine.do_one(chance, thread);
            continue;
        }
        let kind = kind(chance, shape, machine.records.len());
        let address = some_address(chance, shape, &machine.waiting(thread), &kind, thread);
        machine.begin(match kind {
            Kind::Load => Record::Load { thread, address, read: NOT_YET },
            Kind::Store => Record::Store { thread, address, written: values.fresh(chance, address) },
            Kind::Swap => Record::Swap { thread, address, read: NOT_YET, written: values.fresh(chance, address) },
            Kind::Fence => Record::Fence { thread },
        });
    }
    while let Some(thread) = machine.some_thread(chance) {
        machine.do_one(chance, thread);
    }
    machine.records
}

impl Wmo {
    fn begin(&mut self, record: Record) {
        self.begun.entry(record.thread()).or_default().push(self.records.len());
        self.records.push(record);
    }

    /// One that has something begun.
    fn some_thread(&self, chance: &mut Chance) -> Option<u64> {
        let threads: Vec<u64> = self.begun.iter().filter(|(_, begun)| !begun.is_empty()).map(|(&thread, _)| thread).collect();
        (!threads.is_empty()).then(|| *chance.of(&threads))
    }

    fn waiting(&self, thread: u64) -> Vec<u64> {
        let stores = self.begun.get(&thread).into_iter().flatten().filter(|&&x| self.records[x].is_plain_store());
        stores.filter_map(|&x| self.records[x].address()).collect()
    }

    /// Does one of the core's that have nothing to wait for; the first never has.
    fn do_one(&mut self, chance: &mut Chance, thread: u64) {
        let Some(begun) = self.begun.get(&thread) else { return };
        let free: Vec<usize> = (0..begun.len()).filter(|&place| !self.waits(begun, place)).collect();
        if free.is_empty() {
            return;
        }
        let place = *chance.of(&free);
        let earlier = begun[..place].to_vec();
        let x = self.begun.get_mut(&thread).expect("it has some").remove(place);
        self.done(x, &earlier);
    }

    /// A fence waits for all before it, and all behind it wait for the fence. Otherwise only what goes to one address waits, and a plain load
    /// not for a plain store.
    fn waits(&self, begun: &[usize], place: usize) -> bool {
        let record = &self.records[begun[place]];
        begun[..place].iter().map(|&x| &self.records[x]).any(|earlier| {
            let early = earlier.is_plain_store() && record.is_plain_load();
            record.is_fence() || earlier.is_fence() || earlier.address() == record.address() && !early
        })
    }

    fn done(&mut self, x: usize, earlier: &[usize]) {
        let Some(address) = self.records[x].address() else { return };
        let own = earlier.iter().rev().map(|&w| &self.records[w]).find(|r| r.is_plain_store() && r.address() == Some(address));
        let now = own.and_then(Record::written).unwrap_or(self.memory[address as usize]);
        match &mut self.records[x] {
            Record::Load { read, .. } | Record::Swap { read, .. } => *read = now,
            Record::Store { .. } | Record::Fence { .. } => {}
        }
        if let Some(value) = self.records[x].written() {
            self.memory[address as usize] = value;
        }
    }
}

/// Going back to one's own waiting stores is what makes a core see them early.
fn some_address(chance: &mut Chance, shape: &Shape, waiting: &[u64], kind: &Kind, thread: u64) -> u64 {
    if matches!(kind, Kind::Store) && chance.percent(shape.home) {
        return shape.addresses[thread as usize % shape.addresses.len()];
    }
    if !waiting.is_empty() && chance.percent(shape.own) {
        *chance.of(waiting)
    } else {
        *chance.of(&shape.addresses)
    }
}

enum Kind {
    Load,
    Store,
    Swap,
    Fence,
}

/// The kind of the next record, after so many.
fn kind(chance: &mut Chance, shape: &Shape, records: usize) -> Kind {
    let stores = if 2 * records < shape.records { shape.stores } else { shape.late_stores };
    let drawn = chance.below(100);
    if drawn < stores {
        Kind::Store
    } else if drawn < stores + shape.swaps {
        Kind::Swap
    } else if drawn < stores + shape.swaps + shape.fences {
        Kind::Fence
    } else {
        Kind::Load
    }
}

fn step(chance: &mut Chance, kind: Kind, machine: &mut Machine, values: &mut Values, thread: u64, address: u64) -> Record {
    match kind {
        Kind::Load => Record::Load { thread, address, read: machine.load(thread, address) },
        Kind::Store => {
            let written = values.fresh(chance, address);
            machine.buffers.entry(thread).or_default().push_back((address, written));
            Record::Store { thread, address, written }
        }
        Kind::Swap => {
            machine.drain_for_swap(chance, thread, address);
            let read = machine.load(thread, address);
            let written = values.fresh(chance, address);
            machine.memory[address as usize] = written;
            Record::Swap { thread, address, read, written }
        }
        Kind::Fence => {
            machine.drain_all(chance, thread);
            Record::Fence { thread }
        }
    }
}

/// The same programs in another text order: as run, thread by thread, or merged by chance. Program order stays.
pub fn rewritten(chance: &mut Chance, records: Vec<Record>) -> Vec<Record> {
    match chance.below(3) {
        0 => records,
        1 => thread_by_thread(chance, &records).concat(),
        _ => {
            let programs = thread_by_thread(chance, &records);
            merged(chance, programs)
        }
    }
}

pub fn thread_by_thread(chance: &mut Chance, records: &[Record]) -> Vec<Vec<Record>> {
    let mut threads: Vec<u64> = records.iter().map(Record::thread).collect::<BTreeSet<_>>().into_iter().collect();
    chance.shuffle(&mut threads);
    let of = |thread: u64| records.iter().copied().filter(|record| record.thread() == thread).collect();
    threads.into_iter().map(of).collect()
}

pub fn merged(chance: &mut Chance, programs: Vec<Vec<Record>>) -> Vec<Record> {
    let mut left: Vec<VecDeque<Record>> = programs.into_iter().map(VecDeque::from).collect();
    let mut records = Vec::new();
    while !left.is_empty() {
        let which = chance.below(left.len());
        match left[which].pop_front() {
            Some(record) => records.push(record),
            None => drop(left.swap_remove(which)),
        }
    }
    records
}
