//! The edges that rules 1 to 7 force, round by round.

use crate::{Record, Table};

/// The store or swap, other than itself, that wrote what a load or swap reads; none for the first value.
pub fn source(records: &[Record], load: usize) -> Option<usize> {
    let read = records[load].read().filter(|&value| value != 0)?;
    (0..records.len()).find(|&x| writes_there(records, load, x) && records[x].written() == Some(read))
}

/// The lowest load or swap that reads what nobody wrote.
pub fn missing(records: &[Record], sources: &[Option<usize>]) -> Option<usize> {
    (0..records.len()).find(|&load| records[load].read().is_some_and(|value| value != 0) && sources[load].is_none())
}

/// Whether x writes the address of a load, and is not the load.
pub fn writes_there(records: &[Record], load: usize, x: usize) -> bool {
    x != load && records[x].written().is_some() && records[x].address() == records[load].address()
}

/// Whether x is before y in program order.
pub fn earlier(records: &[Record], x: usize, y: usize) -> bool {
    x < y && records[x].thread() == records[y].thread()
}

/// What rules 2 to 5 give for a load and another writer of its address: an edge and its rule.
pub fn settled(records: &[Record], sources: &[Option<usize>], load: usize, x: usize, mut edge: impl FnMut(usize, usize, u8)) {
    let own = earlier(records, x, load);
    match sources[load] {
        Some(source) if source == x && !own => edge(x, load, 2),
        Some(source) if source != x && own => edge(x, source, 3),
        None => {
            edge(load, x, 4);
            if own {
                edge(x, load, 5);
            }
        }
        _ => {}
    }
}

/// What rules 6 and 7 give for a load and another writer of its address, from the chains of the round before.
pub fn chained<T: Table>(chains: &T, sources: &[Option<usize>], load: usize, x: usize, mut edge: impl FnMut(usize, usize, u8)) {
    if let Some(source) = sources[load].filter(|&source| source != x) {
        if chains.has(x, load) {
            edge(x, source, 6);
        }
        if chains.has(source, x) {
            edge(load, x, 7);
        }
    }
}

/// Every load with every other writer of its address.
pub fn reads(records: &[Record]) -> Vec<(usize, usize)> {
    let all = 0..records.len();
    let loads = all.clone().filter(|&load| records[load].read().is_some());
    loads.flat_map(|load| all.clone().filter(move |&x| writes_there(records, load, x)).map(move |x| (load, x))).collect()
}

/// The last round: its edges, its chains, and the chains of the round before it.
pub struct Closed<T> {
    pub edges: T,
    pub chains: T,
    pub before: Option<T>,
}

/// Rounds until nothing is added or a chain leads from an operation to itself.
pub fn rounds<T: Table>(records: &[Record], kept: &T, sources: &[Option<usize>]) -> Closed<T> {
    let reads = reads(records);
    let mut edges = kept.clone();
    for &(load, x) in &reads {
        settled(records, sources, load, x, |a, b, _| edges.put(a, b));
    }
    let mut before = None;
    loop {
        let mut chains = edges.clone();
        chains.close();
        let mut next = edges.clone();
        for &(load, x) in &reads {
            chained(&chains, sources, load, x, |a, b, _| next.put(a, b));
        }
        if next == edges || (0..records.len()).any(|x| chains.has(x, x)) {
            return Closed { edges, chains, before };
        }
        edges = next;
        before = Some(chains);
    }
}
