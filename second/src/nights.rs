//! A night's worth: many runs of one test program, told by their words, and the verdict on each (request 13).
//!
//! The words of the runs stand one behind the other, and so do the numbers of their verdicts: the kind, how many operations are named, the operations, the
//! rules of a circle; unused places are 0.

use crate::desk::{CIRCLE, NONE_LEFT, NO_SOURCE, ORDER};
use crate::signatures::{layout, loads, unpack, NOT_WELL_FORMED, WRONG_LENGTH};
use crate::trace::{Model, Record, Trace, MOST_RECORDS};
use crate::verdict::{verdict, Verdict};

pub const BLOCK: usize = 2 + 2 * MOST_RECORDS;
pub const OPERATIONS_AT: usize = 2;
pub const RULES_AT: usize = 2 + MOST_RECORDS;

const NO_MODEL: usize = 9;

/// The program with other reads, one for each load and swap by record number.
pub fn with_reads(trace: &Trace, reads: &[u64]) -> Trace {
    let mut seen = trace.clone();
    for (load, &value) in loads(trace).into_iter().zip(reads) {
        match &mut seen.places[load] {
            Record::Load { read, .. } | Record::Swap { read, .. } => *read = value,
            other => unreachable!("{other:?} does not read"),
        }
    }
    seen
}

/// A word that is too large, with its run, in one number.
pub fn code(number: usize, run: usize, word: usize) -> usize {
    number + 256 * word + 65536 * run
}

/// The numbers of a verdict; None where this program does not know it.
pub fn block(verdict: &Verdict) -> Option<Vec<u16>> {
    let (kind, operations, rules) = match verdict {
        Verdict::NoSource(load) => (NO_SOURCE, vec![*load], vec![]),
        Verdict::Circle(circle) => (CIRCLE, circle.operations.clone(), circle.rules.clone()),
        Verdict::Order(order) => (ORDER, order.clone(), vec![]),
        Verdict::NoneLeft => (NONE_LEFT, vec![], vec![]),
        Verdict::NotKnown => return None,
    };
    let mut out = vec![0; BLOCK];
    out[0] = kind.into();
    out[1] = operations.len() as u16;
    operations.iter().enumerate().for_each(|(place, &x)| out[OPERATIONS_AT + place] = x as u16);
    rules.iter().enumerate().for_each(|(place, &rule)| out[RULES_AT + place] = rule.into());
    Some(out)
}

/// 10, then 9, then 26, then 24, and nothing is written then; None, and nothing written, where this program does not know one of the verdicts.
pub fn night_into(trace: &Trace, model: u8, words: &[u64], out: &mut [u16], most_steps: u64) -> Option<usize> {
    if !trace.well_formed() {
        return Some(NOT_WELL_FORMED);
    }
    let Some(model) = Model::numbered(model.into()) else { return Some(NO_MODEL) };
    let (each, runs) = (layout(trace).len(), out.len() / BLOCK);
    if out.len() % BLOCK != 0 || words.len() != runs * each {
        return Some(WRONG_LENGTH);
    }
    let mut seen = Vec::new();
    for run in 0..runs {
        match unpack(trace, &words[run * each..][..each]) {
            Ok(reads) => seen.push(with_reads(trace, &reads)),
            Err((number, word)) => return Some(code(number, run, word)),
        }
    }
    let judged = |seen: &Trace| block(&verdict(seen, model.number(), most_steps).expect("a good trace"));
    let blocks: Vec<Vec<u16>> = seen.iter().map(judged).collect::<Option<_>>()?;
    out.copy_from_slice(&blocks.concat());
    Some(0)
}
