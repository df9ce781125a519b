//! The circle that is shown: the shortest, from its lowest number, the first in dictionary order; each edge with its lowest rule.

use crate::rules::{chained, reads, settled, Closed};
use crate::{Record, Table};
use std::collections::VecDeque;

pub fn shortest<T: Table>(closed: &Closed<T>) -> Option<Vec<usize>> {
    let edges = &closed.edges;
    let mut found: Option<(usize, usize, Vec<Option<usize>>)> = None;
    for start in (0..edges.records()).filter(|&x| closed.chains.has(x, x)) {
        let most = found.as_ref().map_or(edges.records(), |(length, ..)| length - 1);
        let steps = steps_to(edges, start, most);
        if let Some(length) = steps[start] {
            found = Some((length, start, steps));
        }
    }
    let (length, start, steps) = found?;
    let mut operations = vec![start];
    for left in (1..length).rev() {
        let last = operations[operations.len() - 1];
        let next = (0..edges.records()).find(|&y| edges.has(last, y) && steps[y] == Some(left))?;
        operations.push(next);
    }
    Some(operations)
}

/// How many edges lead from each record to one of them, by breadth first: at least one, and no more than so many.
fn steps_to<T: Table>(edges: &T, start: usize, most: usize) -> Vec<Option<usize>> {
    let mut steps = vec![None; edges.records()];
    let mut queue = VecDeque::from([(start, 0)]);
    while let Some((y, count)) = queue.pop_front() {
        if count == most {
            break;
        }
        for (x, step) in steps.iter_mut().enumerate() {
            if step.is_none() && edges.has(x, y) {
                *step = Some(count + 1);
                queue.push_back((x, count + 1));
            }
        }
    }
    steps
}

/// The lowest rule that gives each edge of the circle.
pub fn rules<T: Table>(records: &[Record], kept: &T, sources: &[Option<usize>], closed: &Closed<T>, circle: &[usize]) -> Vec<u8> {
    let reads = reads(records);
    let edges = (0..circle.len()).map(|i| (circle[i], circle[(i + 1) % circle.len()]));
    let rule = |(x, y): (usize, usize)| {
        let mut lowest = if kept.has(x, y) { 1 } else { u8::MAX };
        for &(load, writer) in &reads {
            let mut note = |a, b, rule: u8| {
                if (a, b) == (x, y) {
                    lowest = lowest.min(rule);
                }
            };
            settled(records, sources, load, writer, &mut note);
            if let Some(chains) = &closed.before {
                chained(chains, sources, load, writer, &mut note);
            }
        }
        lowest
    };
    edges.map(rule).collect()
}
