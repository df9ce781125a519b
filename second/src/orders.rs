//! Valid orders: the definition, the judge of a proposed list, and the first order in dictionary order.
//!
//! Nothing here looks at the rules' edges, so that an order found here is a test of the rules, and the other way round.

use crate::trace::{kept, Model, Trace, ADDRESSES, LAST_ADDRESS, MOST_RECORDS};
use std::collections::HashMap;

/// The first valid order, the knowledge that there is none, or neither.
#[derive(Clone, Debug, PartialEq, Eq)]
pub enum First {
    Order(Vec<usize>),
    None,
    NotKnown,
}

/// Up to this many operations every permutation is held against the definition; above, `search` decides.
pub const MOST_PERMUTED: usize = 8;

pub fn first_order(trace: &Trace, model: Model, most_steps: u64) -> First {
    if trace.operations().len() <= MOST_PERMUTED {
        first_permutation(trace, model)
    } else {
        search(trace, model, most_steps)
    }
}

// ---- the definition ----

/// Yes exactly for a valid order. Nothing is expected of the list: it may hold any numbers.
pub fn judge(trace: &Trace, model: Model, list: &[usize]) -> bool {
    all_there(trace, list) && kept_pairs(trace, model, list) && values(trace, list)
}

fn all_there(trace: &Trace, list: &[usize]) -> bool {
    let mut sorted = list.to_vec();
    sorted.sort_unstable();
    sorted == trace.operations()
}

fn kept_pairs(trace: &Trace, model: Model, list: &[usize]) -> bool {
    list.iter().enumerate().all(|(i, &later)| list[..i].iter().all(|&earlier| !kept(trace, model, later, earlier)))
}

fn values(trace: &Trace, list: &[usize]) -> bool {
    (0..list.len()).all(|at| match trace.places[list[at]].read() {
        None => true,
        Some(read) => read == value_at(trace, list, at),
    })
}

/// What the load or swap at this place of the list has to read. Going through the list from its end, the first writer that counts is
/// the latest.
fn value_at(trace: &Trace, list: &[usize], at: usize) -> u64 {
    let load = list[at];
    let address = trace.places[load].address().expect("a load has an address");
    (0..list.len())
        .rev()
        .filter(|&i| list[i] != load && trace.writes_to(list[i], address))
        .find(|&i| i < at || trace.before_in_program(list[i], load))
        .map_or(trace.first(address), |i| trace.places[list[i]].written().expect("a writer writes"))
}

// ---- why a list is no order ----

/// Which condition fails first, with the place or the records concerned.
#[derive(Clone, Copy, Debug, PartialEq, Eq, PartialOrd, Ord)]
pub enum Judgement {
    Valid,
    /// Not as many numbers as there are operations.
    WrongLength,
    /// The first place, from 0, where a number stands that is a fence's or past the end.
    BadNumber(usize),
    /// The lowest record that stands there more than once.
    Repeat(usize),
    /// A kept pair the wrong way round: the lowest first record, and with it the lowest second.
    OutOfTurn(usize, usize),
    /// The lowest record that would have to read another value.
    WrongValue(usize),
}

/// Nothing is expected of the list. Each condition is looked at only where those before it hold.
pub fn judgement(trace: &Trace, model: Model, list: &[usize]) -> Judgement {
    if list.len() != trace.operations().len() {
        return Judgement::WrongLength;
    }
    if let Some(place) = list.iter().position(|&x| !trace.is_operation(x)) {
        return Judgement::BadNumber(place);
    }
    let mut sorted = list.to_vec();
    sorted.sort_unstable();
    if let Some(two) = sorted.windows(2).find(|two| two[0] == two[1]) {
        return Judgement::Repeat(two[0]);
    }
    // Sorted, they are the operations; and each has one place in the list.
    let place = |x: usize| list.iter().position(|&y| y == x).expect("all there");
    let turned = |x: usize, y: usize| kept(trace, model, x, y) && place(y) < place(x);
    let second_of = |x: usize| sorted.iter().copied().find(|&y| turned(x, y)).map(|y| Judgement::OutOfTurn(x, y));
    if let Some(pair) = sorted.iter().find_map(|&x| second_of(x)) {
        return pair;
    }
    let wrong = |x: &usize| trace.places[*x].read().is_some_and(|read| read != value_at(trace, list, place(*x)));
    sorted.iter().copied().find(wrong).map_or(Judgement::Valid, Judgement::WrongValue)
}

// ---- all permutations ----

pub fn first_permutation(trace: &Trace, model: Model) -> First {
    let mut list = trace.operations();
    loop {
        // All there holds of every permutation; the other two are asked as they stand in the definition.
        if kept_pairs(trace, model, &list) && values(trace, &list) {
            return First::Order(list);
        }
        if !next_permutation(&mut list) {
            return First::None;
        }
    }
}

/// The next list in dictionary order of the same numbers; false after the last one.
pub fn next_permutation(list: &mut [usize]) -> bool {
    let Some(turn) = (1..list.len()).rev().find(|&i| list[i - 1] < list[i]) else { return false };
    let higher = (turn..list.len()).rev().find(|&i| list[i] > list[turn - 1]).expect("list[turn] is higher");
    list.swap(turn - 1, higher);
    list[turn..].reverse();
    true
}

// ---- depth first, plainly ----

/// Depth first in dictionary order; gives up a list as soon as a kept pair is broken or a load's value is wrong. Slow, and the nearest
/// to the definition: `search` is tested against it where permutations are too many.
pub fn plain_search(trace: &Trace, model: Model, most_steps: u64) -> First {
    let board = Board::new(trace, model);
    let mut list = Vec::new();
    let mut steps = most_steps;
    match plainly(&board, &mut list, board.start(), &mut steps) {
        Some(true) => First::Order(list),
        Some(false) => First::None,
        None => First::NotKnown,
    }
}

/// The same with the steps that it made, each operation placed counted, those taken back too; None where it makes more than `most_steps`.
pub fn plain_steps(trace: &Trace, model: Model, most_steps: u64) -> Option<(First, u64)> {
    let board = Board::new(trace, model);
    let mut list = Vec::new();
    let mut left = most_steps;
    let found = plainly(&board, &mut list, board.start(), &mut left)?;
    Some((if found { First::Order(list) } else { First::None }, most_steps - left))
}

fn plainly(board: &Board, list: &mut Vec<usize>, state: State, steps: &mut u64) -> Option<bool> {
    if board.is_full(&state) {
        return Some(true);
    }
    for &y in &board.operations {
        if state.placed.has(y) || !board.is_ready(&state, y) || !board.reads_rightly(&state, y) {
            continue;
        }
        *steps = steps.checked_sub(1)?;
        list.push(y);
        if plainly(board, list, board.placed(&state, y), steps)? {
            return Some(true);
        }
        list.pop();
    }
    Some(false)
}

// ---- a list so far ----

/// A set of records.
#[derive(Clone, Copy, PartialEq, Eq, Hash)]
struct Set {
    words: [u64; MOST_RECORDS.div_ceil(64)],
}

impl Set {
    const EMPTY: Set = Set { words: [0; MOST_RECORDS.div_ceil(64)] };

    fn of(records: impl Iterator<Item = usize>) -> Set {
        records.fold(Set::EMPTY, Set::with)
    }

    fn with(mut self, x: usize) -> Set {
        self.words[x / 64] |= 1 << (x % 64);
        self
    }

    fn has(&self, x: usize) -> bool {
        self.words[x / 64] >> (x % 64) & 1 == 1
    }

    fn has_all(&self, others: &Set) -> bool {
        self.words.iter().zip(&others.words).all(|(mine, theirs)| theirs & !mine == 0)
    }

    fn count(&self) -> usize {
        self.words.iter().map(|word| word.count_ones() as usize).sum()
    }
}

/// What matters of a list so far: who stands in it, and which writer of each address stands last, if any does.
///
/// Nothing else does: whether y may follow, and what it then reads, is told from these two (`is_ready`, `reads_rightly`), and so is the
/// state after it. Hence two lists with the same state can be completed in the same ways.
#[derive(Clone, Copy, PartialEq, Eq, Hash)]
struct State {
    placed: Set,
    latest: [Option<u16>; ADDRESSES],
}

/// The trace, laid out for placing operations one after the other.
struct Board<'a> {
    trace: &'a Trace,
    operations: Vec<usize>,
    /// For each record, those that a kept pair puts before it.
    needs: Vec<Set>,
    /// For each record that reads, the writers of its address before it in program order, first to last.
    own_writers: Vec<Vec<usize>>,
    /// For each address, the records that read it.
    readers: Vec<Vec<usize>>,
}

impl<'a> Board<'a> {
    fn new(trace: &'a Trace, model: Model) -> Board<'a> {
        let operations = trace.operations();
        let needs = (0..trace.count).map(|y| Set::of((0..y).filter(|&x| kept(trace, model, x, y)))).collect();
        let own_writers = (0..trace.count).map(|load| own_writers(trace, load)).collect();
        let readers = (0..=LAST_ADDRESS).map(|address| readers(trace, address)).collect();
        Board { trace, operations, needs, own_writers, readers }
    }

    fn start(&self) -> State {
        State { placed: Set::EMPTY, latest: [None; ADDRESSES] }
    }

    fn is_full(&self, state: &State) -> bool {
        state.placed.count() == self.operations.len()
    }

    fn address(&self, x: usize) -> usize {
        self.trace.places[x].address().expect("an operation has an address") as usize
    }

    /// All that a kept pair puts before y stands in the list.
    fn is_ready(&self, state: &State, y: usize) -> bool {
        state.placed.has_all(&self.needs[y])
    }

    /// What y would read if it came next is settled already, whatever follows. Writers that count are those in the list and those before
    /// y in program order. Of the latter any that is still to come stands later than the whole list so far; of several the last in
    /// program order stands last, since every model keeps a pair of two writers of one address. If none is to come, the list's latest is the latest.
    fn reads_rightly(&self, state: &State, y: usize) -> bool {
        let Some(read) = self.trace.places[y].read() else { return true };
        let to_come = self.own_writers[y].iter().rev().copied().find(|&w| !state.placed.has(w));
        let writer = to_come.or_else(|| self.latest(state, self.address(y)));
        read == self.left_by(writer, self.address(y))
    }

    /// What the latest writer left at its address, and where there is none what was there first.
    fn left_by(&self, writer: Option<usize>, address: usize) -> u64 {
        writer.map_or(self.trace.firsts[address], |w| self.trace.places[w].written().expect("a writer writes"))
    }

    fn latest(&self, state: &State, address: usize) -> Option<usize> {
        state.latest[address].map(usize::from)
    }

    fn placed(&self, state: &State, y: usize) -> State {
        let mut next = *state;
        next.placed = next.placed.with(y);
        if self.trace.places[y].written().is_some() {
            next.latest[self.address(y)] = Some(y as u16);
        }
        next
    }

    /// Writer y would come to stand between a load that is still to come and the value it has to read: behind y, that load can read
    /// neither the first value nor what the latest writer so far wrote, for y counts for it and stands later. (Values name their writers,
    /// so y does not write the same.) Every completion is then wrong. The load may be a swap, but not y itself.
    fn spoils(&self, state: &State, y: usize) -> bool {
        if self.trace.places[y].written().is_none() {
            return false;
        }
        let address = self.address(y);
        let covered = self.left_by(self.latest(state, address), address);
        self.readers[address].iter().any(|&load| {
            let gone = self.trace.places[load].read() == Some(covered) || self.trace.reads_first(load);
            load != y && !state.placed.has(load) && gone
        })
    }

    fn may_follow(&self, state: &State, y: usize) -> bool {
        !state.placed.has(y) && self.is_ready(state, y) && self.reads_rightly(state, y) && !self.spoils(state, y)
    }
}

fn own_writers(trace: &Trace, load: usize) -> Vec<usize> {
    match (trace.places[load].read(), trace.places[load].address()) {
        (Some(_), Some(address)) => (0..load).filter(|&w| trace.before_in_program(w, load) && trace.writes_to(w, address)).collect(),
        _ => Vec::new(),
    }
}

fn readers(trace: &Trace, address: u64) -> Vec<usize> {
    let reads = |x: &usize| trace.places[*x].read().is_some() && trace.places[*x].address() == Some(address);
    (0..trace.count).filter(reads).collect()
}

// ---- the search ----

/// Can this list be completed? Remembers of every state that was tried whether it can.
struct Search<'a> {
    board: Board<'a>,
    loads: Vec<usize>,
    /// The stores and swaps, each with those that read what it writes.
    writers: Vec<(usize, Vec<usize>)>,
    known: HashMap<State, bool>,
    steps: u64,
    /// What a step takes of `steps`: on a long trace it is more work.
    cost: u64,
}

/// The first valid order in dictionary order: place after place, the lowest operation with which the list can still be completed.
pub fn search(trace: &Trace, model: Model, most_steps: u64) -> First {
    let mut search = Search::new(trace, model, most_steps);
    let mut state = search.board.start();
    match search.can_be_completed(state) {
        None => return First::NotKnown,
        Some(false) => return First::None,
        Some(true) => {}
    }
    let mut list = Vec::new();
    while !search.board.is_full(&state) {
        let Some(y) = search.lowest_next(&state) else { return First::NotKnown };
        list.push(y);
        state = search.board.placed(&state, y);
    }
    First::Order(list)
}

impl<'a> Search<'a> {
    fn new(trace: &'a Trace, model: Model, steps: u64) -> Search<'a> {
        let loads = trace.operations().into_iter().filter(|&x| trace.places[x].is_plain_load()).collect();
        let writers = trace.operations().into_iter().filter(|&x| trace.places[x].written().is_some());
        let writers =
            writers.map(|y| (y, trace.operations().into_iter().filter(|&load| trace.source(load) == Some(y)).collect())).collect();
        let cost = 1 + trace.count as u64 / 65;
        Search { board: Board::new(trace, model), loads, writers, known: HashMap::new(), steps, cost }
    }

    /// None when the steps are used up. The state can be completed, so some operation is found.
    fn lowest_next(&mut self, state: &State) -> Option<usize> {
        for i in 0..self.board.operations.len() {
            let y = self.board.operations[i];
            if self.board.may_follow(state, y) && self.can_be_completed(self.board.placed(state, y))? {
                return Some(y);
            }
        }
        unreachable!("a list that can be completed has a next operation")
    }

    fn can_be_completed(&mut self, state: State) -> Option<bool> {
        let state = self.with_what_fits(state);
        if self.board.is_full(&state) {
            return Some(true);
        }
        if let Some(&known) = self.known.get(&state) {
            return Some(known);
        }
        self.steps = self.steps.checked_sub(self.cost)?;
        let mut found = false;
        for i in 0..self.board.operations.len() {
            let y = self.board.operations[i];
            if self.board.may_follow(&state, y) && self.can_be_completed(self.board.placed(&state, y))? {
                found = true;
                break;
            }
        }
        self.known.insert(state, found);
        Some(found)
    }

    /// Places at once what can only be right there.
    fn with_what_fits(&self, mut state: State) -> State {
        loop {
            let before = state.placed;
            for &load in &self.loads {
                if self.board.may_follow(&state, load) {
                    state = self.board.placed(&state, load);
                }
            }
            for (y, readers) in &self.writers {
                state = self.with_readers(&state, *y, readers).unwrap_or(state);
            }
            if state.placed == before {
                return state;
            }
        }
    }

    /// A plain load that may follow can be placed at once, and no completion is lost: in any completion move the load to the front. It is ready, so
    /// no kept pair breaks; it reads rightly there; and it writes nothing, so nobody else's value changes.
    ///
    /// So can a writer y that may follow, together with all that read from it, where these are plain loads that may follow it. In any completion
    /// move y and behind it its readers to the front. They are ready, and read rightly. Take any other load at that address. It reads neither
    /// the first value nor what stands there now, for y would spoil it; nor from y. So it reads from a writer that is still to come, and y is
    /// before that one now, as it was or not: the latest that counts for this load is the same as before, whether y counts or not.
    fn with_readers(&self, state: &State, y: usize, readers: &[usize]) -> Option<State> {
        if !self.board.may_follow(state, y) {
            return None;
        }
        readers.iter().filter(|&&load| !state.placed.has(load)).try_fold(self.board.placed(state, y), |state, &load| {
            let fits = self.board.trace.places[load].is_plain_load() && self.board.may_follow(&state, load);
            fits.then(|| self.board.placed(&state, load))
        })
    }
}
