//! The edges that the rules force, as plain sets of pairs.

use crate::trace::{kept, Model, Trace, MOST_RECORDS};
use std::collections::{BTreeMap, BTreeSet};

pub type Pair = (usize, usize);
pub type Pairs = BTreeSet<Pair>;

/// For each edge the lowest rule that gives it so far.
pub type Edges = BTreeMap<Pair, u8>;

/// Where the rounds ended.
#[derive(Clone, Debug, PartialEq, Eq)]
pub struct LastRound {
    pub edges: Edges,
    pub chains: Pairs,
}

impl LastRound {
    pub fn contradicted(&self) -> bool {
        self.chains.iter().any(|(x, y)| x == y)
    }
}

#[derive(Clone, Debug, PartialEq, Eq)]
pub struct Circle {
    pub operations: Vec<usize>,
    pub rules: Vec<u8>,
}

/// Runs the rounds. A circle can only be there in the last one, since rounds end with the first circle.
pub fn last_round(trace: &Trace, model: Model, supposed: &[Pair]) -> LastRound {
    let mut edges = round_zero(trace, model, supposed);
    loop {
        let round = LastRound { chains: chains(&edges), edges: edges.clone() };
        if round.contradicted() {
            return round;
        }
        let mut added = false;
        for (pair, rule) in from_chains(trace, &round.chains) {
            added |= !edges.contains_key(&pair);
            give(&mut edges, pair, rule);
        }
        if !added {
            return round;
        }
    }
}

/// The edges of every round up to the last.
pub fn rounds(trace: &Trace, model: Model, supposed: &[Pair]) -> Vec<Edges> {
    let last = last_round(trace, model, supposed).edges;
    let mut all = vec![round_zero(trace, model, supposed)];
    while all[all.len() - 1].len() < last.len() {
        let mut next = all[all.len() - 1].clone();
        for (pair, rule) in from_chains(trace, &chains(&next)) {
            give(&mut next, pair, rule);
        }
        all.push(next);
    }
    all
}

/// The circle that is shown, where the forced edges have one.
pub fn circle(trace: &Trace, model: Model) -> Option<Circle> {
    let round = last_round(trace, model, &[]);
    if !round.contradicted() {
        return None;
    }
    let operations = first_shortest_circle(&round.edges)?;
    let rules = around(&operations).map(|pair| round.edges[&pair]).collect();
    Some(Circle { operations, rules })
}

/// Each neighbouring pair, and the last with the first.
pub fn around(operations: &[usize]) -> impl Iterator<Item = Pair> + '_ {
    let length = operations.len();
    (0..length).map(move |i| (operations[i], operations[(i + 1) % length]))
}

fn give(edges: &mut Edges, pair: Pair, rule: u8) {
    let lowest = edges.entry(pair).or_insert(rule);
    *lowest = rule.min(*lowest);
}

/// Rules 1 to 5, and 8.
fn round_zero(trace: &Trace, model: Model, supposed: &[Pair]) -> Edges {
    let mut edges = Edges::new();
    let operations = trace.operations();
    for &x in &operations {
        for &y in &operations {
            if kept(trace, model, x, y) {
                give(&mut edges, (x, y), 1);
            }
        }
    }
    for &load in &operations {
        edges_of_a_sourced_load(trace, load, &mut edges);
        edges_of_a_load_of_the_first_value(trace, load, &mut edges);
    }
    for &pair in supposed {
        give(&mut edges, pair, 8);
    }
    edges
}

/// Rules 2 and 3.
fn edges_of_a_sourced_load(trace: &Trace, load: usize, edges: &mut Edges) {
    let Some(source) = trace.source(load) else { return };
    if !trace.before_in_program(source, load) {
        give(edges, (source, load), 2);
    }
    for other in other_writers(trace, load, Some(source)) {
        if trace.before_in_program(other, load) {
            give(edges, (other, source), 3);
        }
    }
}

/// Rules 4 and 5.
fn edges_of_a_load_of_the_first_value(trace: &Trace, load: usize, edges: &mut Edges) {
    if !trace.reads_first(load) {
        return;
    }
    for writer in other_writers(trace, load, None) {
        give(edges, (load, writer), 4);
        if trace.before_in_program(writer, load) {
            give(edges, (writer, load), 5);
        }
    }
}

/// Rules 6 and 7. The answer is a list: one edge may be given by both.
fn from_chains(trace: &Trace, chains: &Pairs) -> Vec<(Pair, u8)> {
    let mut given = Vec::new();
    for load in trace.operations() {
        let Some(source) = trace.source(load) else { continue };
        for other in other_writers(trace, load, Some(source)) {
            if chains.contains(&(other, load)) {
                given.push(((other, source), 6));
            }
            if chains.contains(&(source, other)) {
                given.push(((load, other), 7));
            }
        }
    }
    given
}

/// Who writes the load's address, without the load itself (a swap writes too) and without its source.
fn other_writers(trace: &Trace, load: usize, source: Option<usize>) -> Vec<usize> {
    let address = trace.places[load].address().expect("a load has an address");
    (0..trace.count).filter(|&w| trace.writes_to(w, address) && w != load && Some(w) != source).collect()
}

/// For each operation that an edge leads from, those that its edges lead to, lowest first.
type Followers = Vec<(usize, Vec<usize>)>;

fn followers(edges: &Edges) -> Followers {
    let mut all = Followers::new();
    for &(x, y) in edges.keys() {
        match all.last_mut() {
            Some((last, ends)) if *last == x => ends.push(y),
            _ => all.push((x, vec![y])),
        }
    }
    all
}

/// A set of operations, as a mark for each.
type Marks = [bool; MOST_RECORDS];

/// A chain leads from x to whatever can be walked to from x: from each end that is new, the walk goes on along every edge.
pub fn chains(edges: &Edges) -> Pairs {
    let followers = followers(edges);
    let mut ends: [&[usize]; MOST_RECORDS] = [&[]; MOST_RECORDS];
    followers.iter().for_each(|(x, next)| ends[*x] = next);
    let mut all = Vec::new();
    for (x, first) in &followers {
        let mut reached: Marks = [false; MOST_RECORDS];
        let mut fresh = first.clone();
        while let Some(y) = fresh.pop() {
            if !reached[y] {
                reached[y] = true;
                fresh.extend(ends[y]);
            }
        }
        all.extend((0..MOST_RECORDS).filter(|&y| reached[y]).map(|y| (*x, y)));
    }
    Pairs::from_iter(all)
}

/// The shortest circle; written from its lowest number; of several the first in dictionary order. Just so it is looked for: one length after the
/// other, one start after the other, and from each start every list of higher numbers in dictionary order. The first that closes is the one.
///
/// There would be too many lists, so those are left out that cannot close: where even the fewest edges that lead back to the start are too many.
pub fn first_shortest_circle(edges: &Edges) -> Option<Vec<usize>> {
    let followers = followers(edges);
    let mut ends: [&[usize]; MOST_RECORDS] = [&[]; MOST_RECORDS];
    followers.iter().for_each(|(x, next)| ends[*x] = next);
    let back: Vec<Vec<Option<usize>>> = followers.iter().map(|(start, _)| ways_back(edges, *start)).collect();
    (1..=followers.len()).find_map(|length| {
        followers.iter().zip(&back).find_map(|((start, _), back)| {
            let mut list = vec![*start];
            closes(&ends, back, &mut list, length).then_some(list)
        })
    })
}

/// For each operation the fewest edges, one at the least, that lead from it to the start; None where none do.
fn ways_back(edges: &Edges, start: usize) -> Vec<Option<usize>> {
    let mut before = vec![Vec::new(); MOST_RECORDS];
    edges.keys().for_each(|&(x, y)| before[y].push(x));
    let mut fewest = vec![None; MOST_RECORDS];
    let mut reached = vec![start];
    for count in 1.. {
        let next: Vec<usize> = reached.iter().flat_map(|&y| &before[y]).copied().collect();
        reached.clear();
        for x in next {
            if fewest[x].is_none() {
                fewest[x] = Some(count);
                reached.push(x);
            }
        }
        if reached.is_empty() {
            break;
        }
    }
    fewest
}

/// Makes the list longer, in dictionary order, until it has this length and an edge leads from its last to its first; false where that cannot be.
fn closes(ends: &[&[usize]; MOST_RECORDS], back: &[Option<usize>], list: &mut Vec<usize>, length: usize) -> bool {
    let (first, last) = (list[0], list[list.len() - 1]);
    if back[last].is_none_or(|fewest| list.len() - 1 + fewest > length) {
        return false;
    }
    if list.len() == length {
        return ends[last].contains(&first);
    }
    for &next in ends[last] {
        if next > first && !list.contains(&next) {
            list.push(next);
            if closes(ends, back, list, length) {
                return true;
            }
            list.pop();
        }
    }
    false
}
