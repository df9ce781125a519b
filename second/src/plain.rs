//! The plain machine of document 02, request 14, written from its text: a trace run by a list of steps.
//!
//! SC has one memory. TSO has a store buffer a core, first in first out: a load takes the newest own entry for its address, or else memory; fences and
//! swaps run only on an empty buffer. A step below the number of cores runs the next record of that core; so many more empties the oldest entry of its
//! buffer. The first impossible step ends the run.

use crate::orders::judge;
use crate::trace::{Model, Record, Trace, LAST_ADDRESS, LAST_THREAD};
use std::collections::{BTreeMap, BTreeSet, VecDeque};

/// How many cores there are: steps from here on empty a buffer.
pub const CORES: u8 = LAST_THREAD as u8 + 1;

/// How a run ends: at an impossible step, or behind the last one, and whether all records ran and the buffers are empty.
#[derive(Clone, Copy, Debug, PartialEq, Eq)]
pub enum Ran {
    Stuck(usize),
    Done(bool),
}

/// The records that each core has left, its buffer, and what memory holds at each address.
#[derive(Clone, PartialEq, Eq, PartialOrd, Ord)]
pub struct Plain {
    left: Vec<VecDeque<usize>>,
    buffers: Vec<VecDeque<(u64, u64)>>,
    memory: BTreeMap<u64, u64>,
}

impl Plain {
    pub fn new(trace: &Trace) -> Plain {
        let of = |core: u8| (0..trace.count).filter(|&x| trace.places[x].thread() == core.into()).collect();
        let memory = (0..=LAST_ADDRESS).map(|address| (address, trace.first(address))).collect();
        Plain { left: (0..CORES).map(of).collect(), buffers: vec![VecDeque::new(); CORES.into()], memory }
    }

    /// Does the step and says so, where it is possible.
    pub fn step(&mut self, trace: &Trace, model: Model, step: u8) -> bool {
        match step.checked_sub(CORES) {
            None => self.run(trace, model, step.into()),
            Some(core) => self.empty(core.into()),
        }
    }

    fn run(&mut self, trace: &Trace, model: Model, core: usize) -> bool {
        let Some(&next) = self.left[core].front() else { return false };
        let waits = !self.buffers[core].is_empty();
        match trace.places[next] {
            Record::Fence { .. } if waits => return false,
            Record::Fence { .. } => {}
            Record::Load { address, read, .. } if self.got(core, address) != read => return false,
            Record::Load { .. } => {}
            Record::Swap { address, read, .. } if waits || self.got(core, address) != read => return false,
            Record::Store { address, written, .. } if model == Model::Tso => self.buffers[core].push_back((address, written)),
            Record::Store { address, written, .. } | Record::Swap { address, written, .. } => {
                self.memory.insert(address, written);
            }
        }
        self.left[core].pop_front();
        true
    }

    fn got(&self, core: usize, address: u64) -> u64 {
        let own = self.buffers[core].iter().rev().find(|(to, _)| *to == address).map(|(_, value)| value);
        *own.unwrap_or(&self.memory[&address])
    }

    fn empty(&mut self, core: usize) -> bool {
        let Some((address, value)) = self.buffers.get_mut(core).and_then(VecDeque::pop_front) else { return false };
        self.memory.insert(address, value);
        true
    }

    pub fn finished(&self) -> bool {
        self.left.iter().all(VecDeque::is_empty) && self.buffers.iter().all(VecDeque::is_empty)
    }
}

/// Only these two have a machine.
pub fn has_machine(model: Model) -> bool {
    matches!(model, Model::Sc | Model::Tso)
}

pub fn run(trace: &Trace, model: Model, steps: &[u8]) -> Ran {
    let mut machine = Plain::new(trace);
    match steps.iter().position(|&step| !machine.step(trace, model, step)) {
        Some(place) => Ran::Stuck(place),
        None => Ran::Done(machine.finished()),
    }
}

/// The steps of an order, each core as late as it can: to place an operation its core runs all that it has up to it, and empties once where it is a
/// store that went into the buffer; at the end the fences run that are left, lowest record first. None for a list that is no order.
pub fn steps_of(trace: &Trace, model: Model, order: &[usize]) -> Option<Vec<u8>> {
    if !judge(trace, model, order) {
        return None;
    }
    let mut steps = Vec::new();
    let mut ran = BTreeSet::new();
    for &x in order {
        let core = trace.places[x].thread();
        let due = (0..=x).filter(|&y| trace.places[y].thread() == core && ran.insert(y)).count();
        steps.extend(std::iter::repeat_n(core as u8, due));
        if model == Model::Tso && trace.places[x].is_plain_store() {
            steps.push(CORES + core as u8);
        }
    }
    steps.extend((0..trace.count).filter(|x| !ran.contains(x)).map(|x| trace.places[x].thread() as u8));
    Some(steps)
}

/// Whether some list of steps runs the trace through: every state that steps lead to is looked at once.
pub fn some_steps(trace: &Trace, model: Model) -> bool {
    let mut seen = BTreeSet::from([Plain::new(trace)]);
    let mut open: Vec<Plain> = seen.iter().cloned().collect();
    while let Some(machine) = open.pop() {
        if machine.finished() {
            return true;
        }
        for step in 0..2 * CORES {
            let mut next = machine.clone();
            if next.step(trace, model, step) && seen.insert(next.clone()) {
                open.push(next);
            }
        }
    }
    false
}
