//! Papers: lists of reasons why a trace has no valid order. Read after docs/PAPERS.md and request 11 of document 02; a writer of its own gives the comparison
//! something to read, and damages it.

use crate::chance::Chance;
use crate::rules::{around, first_shortest_circle, last_round, rounds, Edges, Pair};
use crate::trace::{kept, Model, Trace, MOST_RECORDS};
use std::collections::VecDeque;

const CIRCLE: u16 = 0;
const SPLIT: u16 = 8;

/// A branch has at most so many entries.
pub const LONGEST_BRANCH: usize = MOST_RECORDS * MOST_RECORDS;

/// One entry: its rule, the two records, the numbers of the entries that it rests on.
struct Entry<'a> {
    rule: u16,
    x: usize,
    y: usize,
    rests: &'a [u16],
}

/// The entries of a list, or None where its numbers do not make up whole ones.
fn entries(mut list: &[u16]) -> Option<Vec<Entry<'_>>> {
    let mut found = Vec::new();
    while let [rule, x, y, count, rest @ ..] = list {
        let count = usize::from(*count);
        found.push(Entry { rule: *rule, x: (*x).into(), y: (*y).into(), rests: rest.get(..count)? });
        list = &rest[count..];
    }
    list.is_empty().then_some(found)
}

/// Where a row of entries leads from and to, if each begins where the one before it ended and there is one at least.
fn way(branch: &[Pair], rests: &[u16]) -> Option<Pair> {
    let edges: Option<Vec<Pair>> = rests.iter().map(|&number| branch.get(usize::from(number)).copied()).collect();
    let edges = edges?;
    let joined = edges.windows(2).all(|two| two[0].1 == two[1].0);
    joined.then(|| Some((edges.first()?.0, edges.last()?.1)))?
}

/// Whether S' writes L's address and is neither L nor its source.
fn other_writer(trace: &Trace, other: usize, load: usize, source: usize) -> bool {
    let address = trace.places[load].address().expect("a load has an address");
    trace.is_operation(other) && trace.writes_to(other, address) && other != load && other != source
}

/// Whether the rule of an entry gives its edge, the entries that it rests on being the only chain.
fn gives(trace: &Trace, model: Model, entry: &Entry<'_>, chain: Option<Pair>) -> bool {
    let (x, y) = (entry.x, entry.y);
    if !trace.is_operation(x) || !trace.is_operation(y) {
        return false;
    }
    // Who reads the first value of an address that the writer writes.
    let begins = |writer: usize, load: usize| {
        trace.reads_first(load) && writer != load && trace.places[load].address().is_some_and(|address| trace.writes_to(writer, address))
    };
    match entry.rule {
        1 => kept(trace, model, x, y),
        2 => trace.source(y) == Some(x) && !trace.before_in_program(x, y),
        3 => trace
            .operations()
            .into_iter()
            .any(|load| trace.source(load) == Some(y) && other_writer(trace, x, load, y) && trace.before_in_program(x, load)),
        4 => begins(y, x),
        5 => begins(x, y) && trace.before_in_program(x, y),
        6 => chain.is_some_and(|(from, load)| {
            from == x && trace.is_operation(load) && trace.source(load) == Some(y) && other_writer(trace, x, load, y)
        }),
        7 => chain.is_some_and(|(source, to)| to == y && trace.source(x) == Some(source) && other_writer(trace, y, x, source)),
        _ => false,
    }
}

/// Whether the list shows that the trace, which is well formed, has no valid order under the model.
pub fn accepted(trace: &Trace, model: Model, list: &[u16]) -> bool {
    let Some(entries) = entries(list) else { return false };
    // The branches still to close, the next one last, each with its entries' edges.
    let mut branches: Vec<Vec<Pair>> = vec![Vec::new()];
    for entry in &entries {
        let Some(mut branch) = branches.pop() else { return false };
        let chain = way(&branch, entry.rests);
        if entry.rule == CIRCLE {
            if entry.x != entry.y || chain != Some((entry.x, entry.x)) {
                return false;
            }
            continue;
        }
        let bare = entry.rests.is_empty();
        let may = match entry.rule {
            SPLIT => bare && entry.x != entry.y && trace.is_operation(entry.x) && trace.is_operation(entry.y),
            1..=5 => bare && gives(trace, model, entry, None),
            _ => gives(trace, model, entry, chain),
        };
        if !may || branch.len() == LONGEST_BRANCH {
            return false;
        }
        if entry.rule == SPLIT {
            let mut other = branch.clone();
            other.push((entry.y, entry.x));
            branches.push(other);
        }
        branch.push((entry.x, entry.y));
        branches.push(branch);
    }
    branches.is_empty()
}

/// What a list breaks of what request 11 promises of the writer's; None where it keeps all: it is accepted, names no edge twice in one branch, and splits only
/// without a circle and on a pair that is held neither way.
pub fn broken(trace: &Trace, model: Model, list: &[u16]) -> Option<&'static str> {
    if !accepted(trace, model, list) {
        return Some("it is not accepted");
    }
    // The branches still to close, the next one last: the edges of each, and those of them that are supposed.
    let mut branches: Vec<(Vec<Pair>, Vec<Pair>)> = vec![(Vec::new(), Vec::new())];
    for entry in entries(list)? {
        let (mut branch, mut supposed) = branches.pop()?;
        let (pair, turned) = ((entry.x, entry.y), (entry.y, entry.x));
        if entry.rule == CIRCLE {
            continue;
        }
        if branch.contains(&pair) || entry.rule == SPLIT && branch.contains(&turned) {
            return Some("an edge is named twice in one branch");
        }
        if entry.rule == SPLIT {
            let round = last_round(trace, model, &supposed);
            if round.contradicted() {
                return Some("a branch with a circle is split");
            }
            if round.chains.contains(&pair) || round.chains.contains(&turned) {
                return Some("a branch is split on a pair that is held");
            }
            branches.push(([branch.as_slice(), &[turned]].concat(), [supposed.as_slice(), &[turned]].concat()));
            supposed.push(pair);
        }
        branch.push(pair);
        branches.push((branch, supposed));
    }
    None
}

/// A paper of this package's own, where the rules alone, or splits on two writers of an address, get to the end; None where they do not, or not soon. It names
/// every forced edge that a circle leads over, and splits on the first pair that is open: papers of others are shorter.
pub fn written(trace: &Trace, model: Model) -> Option<Vec<u16>> {
    let mut list = Vec::new();
    close(trace, model, &mut Vec::new(), &mut list).then_some(list)
}

/// No paper of ours supposes more, nor is longer: without a better choice of splits it doubles with every pair.
const MOST_SUPPOSED: usize = 5;
const LONGEST: usize = 3_000;

fn close(trace: &Trace, model: Model, supposed: &mut Vec<Pair>, list: &mut Vec<u16>) -> bool {
    let round = last_round(trace, model, supposed);
    if round.contradicted() {
        leaf(trace, model, supposed, &round.edges, list);
        return list.len() <= LONGEST;
    }
    let held = |x: usize, y: usize| round.chains.contains(&(x, y));
    let open = writers(trace).into_iter().find(|&(x, y)| !held(x, y) && !held(y, x));
    let Some((x, y)) = open.filter(|_| supposed.len() < MOST_SUPPOSED) else { return false };
    list.extend([SPLIT, x as u16, y as u16, 0]);
    [(x, y), (y, x)].into_iter().all(|pair| {
        supposed.push(pair);
        let closed = list.len() <= LONGEST && close(trace, model, supposed, list);
        supposed.pop();
        closed
    })
}

/// Every two writers of one address, the lower one first.
fn writers(trace: &Trace) -> Vec<Pair> {
    let all: Vec<usize> = (0..trace.count).filter(|&x| trace.places[x].written().is_some()).collect();
    let pairs = all.iter().flat_map(|&x| all.iter().map(move |&y| (x, y)));
    pairs.filter(|&(x, y)| x < y && trace.places[x].address() == trace.places[y].address()).collect()
}

/// Names what the circle shown leads over, and closes the branch.
fn leaf(trace: &Trace, model: Model, supposed: &[Pair], edges: &Edges, list: &mut Vec<u16>) {
    let mut branch = supposed.to_vec();
    let circle = first_shortest_circle(edges).expect("a circle");
    let all = rounds(trace, model, supposed);
    around(&circle).for_each(|pair| tell(trace, &all, pair, &mut branch, list));
    let rests: Vec<u16> = around(&circle).map(|pair| place(&branch, pair)).collect();
    list.extend([CIRCLE, circle[0] as u16, circle[0] as u16, rests.len() as u16]);
    list.extend(rests);
}

/// The number of an edge in a branch that names it.
fn place(branch: &[Pair], pair: Pair) -> u16 {
    branch.iter().position(|&named| named == pair).expect("it is named") as u16
}

/// Names an edge, and before it those that it rests on: an edge of a round rests on edges of the rounds before.
fn tell(trace: &Trace, all: &[Edges], pair: Pair, branch: &mut Vec<Pair>, list: &mut Vec<u16>) {
    if branch.contains(&pair) {
        return;
    }
    let first = all.iter().position(|edges| edges.contains_key(&pair)).expect("a forced edge");
    let rule = all[first][&pair];
    let chain: Vec<Pair> = match rule {
        6 => {
            let loads = trace
                .operations()
                .into_iter()
                .filter(|&load| trace.source(load) == Some(pair.1) && other_writer(trace, pair.0, load, pair.1));
            loads.filter_map(|load| shortest(&all[first - 1], pair.0, load)).next().expect("a chain")
        }
        7 => shortest(&all[first - 1], trace.source(pair.0).expect("a source"), pair.1).expect("a chain"),
        _ => Vec::new(),
    };
    chain.iter().for_each(|&edge| tell(trace, all, edge, branch, list));
    let rests: Vec<u16> = chain.iter().map(|&edge| place(branch, edge)).collect();
    list.extend([rule.into(), pair.0 as u16, pair.1 as u16, rests.len() as u16]);
    list.extend(rests);
    branch.push(pair);
}

/// The edges of a shortest way from x to y, one at the least.
fn shortest(edges: &Edges, x: usize, y: usize) -> Option<Vec<Pair>> {
    let mut came = vec![None; MOST_RECORDS];
    let mut next = VecDeque::from([x]);
    while let Some(at) = next.pop_front() {
        for (&(_, to), _) in edges.range((at, 0)..(at + 1, 0)) {
            if came[to].is_none() {
                came[to] = Some(at);
                next.push_back(to);
            }
        }
    }
    let mut way = vec![(came[y]?, y)];
    while way[0].0 != x {
        let at = way[0].0;
        way.insert(0, (came[at]?, at));
    }
    Some(way)
}

/// A paper with one number changed, taken out or put in, cut short, run on, or with two entries' worth of numbers changed places; or numbers by chance.
pub fn damaged(chance: &mut Chance, paper: &[u16]) -> Vec<u16> {
    let mut list = paper.to_vec();
    let near = |chance: &mut Chance, number: u16| {
        let any = chance.below(usize::from(u16::MAX) + 1) as u16;
        *chance.of(&[number.wrapping_add(1), number.wrapping_sub(1), 0, 8, any])
    };
    if list.is_empty() {
        return vec![*chance.of(&[0, 1, 8]); chance.below(9)];
    }
    let at = chance.below(list.len());
    match chance.below(10) {
        0..=4 => list[at] = near(chance, list[at]),
        5 => drop(list.remove(at)),
        6 => {
            let number = near(chance, paper[at]);
            list.insert(at, number);
        }
        7 => list.truncate(at),
        8 => list.extend_from_slice(&paper[at..]),
        _ => {
            let other = chance.below(list.len());
            list.swap(at, other);
        }
    }
    list
}
