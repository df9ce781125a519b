//! Lists of record numbers to be judged: orders, nearly orders, and nothing of the kind. Lists of steps to be run likewise.

use crate::chance::Chance;
use crate::plain::{Plain, CORES};
use crate::trace::{Model, Trace, MOST_RECORDS};

/// From an order, where one is known, or from the operations; left so, or changed in one way or in several, or numbers by chance.
pub fn drawn(chance: &mut Chance, trace: &Trace, order: Option<&[usize]>) -> Vec<u16> {
    let front = match order {
        Some(order) if chance.percent(85) => order.to_vec(),
        _ => trace.operations(),
    };
    let mut list: Vec<u16> = front.into_iter().map(|x| x as u16).collect();
    match chance.below(12) {
        0..=2 => {}
        3..=7 => change(chance, trace, &mut list),
        8 | 9 => (0..chance.between(2, 3)).for_each(|_| change(chance, trace, &mut list)),
        10 => chance.shuffle(&mut list),
        _ => {
            let length = *chance.of(&[0, 1, 2, 4, list.len(), MOST_RECORDS - 1, MOST_RECORDS, MOST_RECORDS + 1, 2 * MOST_RECORDS, 300]);
            list = (0..length).map(|_| any_number(chance, trace)).collect();
        }
    }
    list
}

/// Neighbours or any two change places; one comes twice, is no operation's, goes, or comes in.
fn change(chance: &mut Chance, trace: &Trace, list: &mut Vec<u16>) {
    let length = list.len();
    if length < 2 {
        list.push(any_number(chance, trace));
        return;
    }
    let (here, there) = (chance.below(length), chance.below(length));
    match chance.below(8) {
        0..=2 => list.swap(here, (here + 1) % length),
        3 => list.swap(here, there),
        4 => list[here] = list[there],
        5 => list[here] = bad_number(chance, trace, list[here]),
        6 => drop(list.remove(here)),
        _ => list.insert(here, any_number(chance, trace)),
    }
}

/// A fence, past the end, or a number that would be right if its higher byte were lost.
fn bad_number(chance: &mut Chance, trace: &Trace, now: u16) -> u16 {
    let fences: Vec<usize> = (0..trace.count).filter(|&x| trace.places[x].is_fence()).collect();
    match chance.below(4) {
        0 | 1 if !fences.is_empty() => *chance.of(&fences) as u16,
        0 | 1 => (trace.count + chance.below(3)) as u16,
        2 => now | 256 << chance.below(8),
        _ => any_number(chance, trace),
    }
}

/// Mostly one that a record of this trace has, or nearly.
fn any_number(chance: &mut Chance, trace: &Trace) -> u16 {
    match chance.below(10) {
        0..=6 => chance.below(trace.count + 2) as u16,
        7 | 8 => chance.below(MOST_RECORDS + 2) as u16,
        _ => chance.draw() as u16,
    }
}

/// Steps: those of an order, where one is known, or possible ones by chance; left so, changed, cut off, run on, or bytes by chance.
pub fn drawn_steps(chance: &mut Chance, trace: &Trace, model: Model, known: Option<&[u8]>) -> Vec<u8> {
    let mut steps = match known {
        Some(steps) if chance.percent(60) => steps.to_vec(),
        _ => possible_steps(chance, trace, model),
    };
    match chance.below(10) {
        0..=3 => {}
        4..=7 => (0..chance.between(1, 2)).for_each(|_| change_steps(chance, &mut steps)),
        8 => steps.truncate(chance.below(steps.len() + 1)),
        _ => {
            let length = *chance.of(&[0, 1, 3, 2 * MOST_RECORDS + 1, 600]);
            steps = (0..length).map(|_| any_step(chance)).collect();
        }
    }
    steps
}

/// One possible step after the other, up to an end that may be any.
fn possible_steps(chance: &mut Chance, trace: &Trace, model: Model) -> Vec<u8> {
    let mut machine = Plain::new(trace);
    let mut steps = Vec::new();
    let mut tries = 0;
    while tries < 40 && !machine.finished() {
        let step = chance.below(2 * CORES as usize) as u8;
        if machine.step(trace, model, step) {
            steps.push(step);
            tries = 0;
        }
        tries += 1;
    }
    steps
}

fn change_steps(chance: &mut Chance, steps: &mut Vec<u8>) {
    let length = steps.len();
    if length < 2 {
        steps.push(any_step(chance));
        return;
    }
    let (here, there) = (chance.below(length), chance.below(length));
    match chance.below(5) {
        0 => steps.swap(here, (here + 1) % length),
        1 => steps.swap(here, there),
        2 => steps[here] = any_step(chance),
        3 => drop(steps.remove(here)),
        _ => steps.insert(here, any_step(chance)),
    }
}

/// Mostly one that there is.
fn any_step(chance: &mut Chance) -> u8 {
    match chance.below(10) {
        0..=7 => chance.below(2 * CORES as usize) as u8,
        8 => 2 * CORES + chance.below(3) as u8,
        _ => chance.draw() as u8,
    }
}
