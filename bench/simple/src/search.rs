//! The plain search of request 7: extend a list by the lowest operation that may come and reads what it read, and go back when stuck. A step is one
//! operation placed.

use crate::rules::{earlier, writes_there};
use crate::{Record, Table};

pub struct Found {
    pub order: Option<Vec<usize>>,
    pub steps: u64,
    /// The search came to its end, or to an order, within the limit.
    pub ended: bool,
}

struct Search<'a> {
    records: &'a [Record],
    operations: Vec<usize>,
    /// The earlier partners of each operation in kept pairs, the nearest first.
    partners: Vec<Vec<usize>>,
    /// The writers of each load's address that are earlier in its program order, the nearest first.
    own: Vec<Vec<usize>>,
    placed: Vec<bool>,
    list: Vec<usize>,
    /// The placed writers of each address, the latest last.
    written: Vec<Vec<usize>>,
    steps: u64,
    limit: u64,
}

pub fn plain<T: Table>(records: &[Record], kept: &T, limit: u64) -> Found {
    let n = records.len();
    let below = |y: usize, test: &dyn Fn(usize) -> bool| (0..y).rev().filter(|&x| test(x)).collect::<Vec<_>>();
    let mut search = Search {
        records,
        operations: (0..n).filter(|&x| !records[x].is_fence()).collect(),
        partners: (0..n).map(|y| below(y, &|x| kept.has(x, y))).collect(),
        own: (0..n).map(|y| below(y, &|x| earlier(records, x, y) && writes_there(records, y, x))).collect(),
        placed: vec![false; n],
        list: Vec::new(),
        written: vec![Vec::new(); 16],
        steps: 0,
        limit,
    };
    let found = search.find();
    Found { order: found.then_some(search.list), steps: search.steps.min(limit), ended: search.steps <= limit }
}

impl Search<'_> {
    fn find(&mut self) -> bool {
        if self.list.len() == self.operations.len() {
            return true;
        }
        for i in 0..self.operations.len() {
            let y = self.operations[i];
            if self.placed[y] || self.partners[y].iter().any(|&x| !self.placed[x]) || !self.reads_right(y) {
                continue;
            }
            self.steps += 1;
            if self.steps > self.limit {
                return false;
            }
            self.place(y);
            if self.find() {
                return true;
            }
            self.take_back(y);
            if self.steps > self.limit {
                return false;
            }
        }
        false
    }

    /// Own writers that wait are later than all that is placed.
    fn reads_right(&self, y: usize) -> bool {
        let (Some(read), Some(address)) = (self.records[y].read(), self.records[y].address()) else { return true };
        let waiting = self.own[y].iter().find(|&&x| !self.placed[x]);
        let latest = waiting.or(self.written[address].last());
        read == latest.and_then(|&x| self.records[x].written()).unwrap_or(0)
    }

    fn place(&mut self, y: usize) {
        self.placed[y] = true;
        self.list.push(y);
        if let (Some(address), Some(_)) = (self.records[y].address(), self.records[y].written()) {
            self.written[address].push(y);
        }
    }

    fn take_back(&mut self, y: usize) {
        self.placed[y] = false;
        self.list.pop();
        if let (Some(address), Some(_)) = (self.records[y].address(), self.records[y].written()) {
            self.written[address].pop();
        }
    }
}
