//! First values by chance, and the init lines that say so.

use super::threads::numbered;
use crate::chance::Chance;
use crate::trace::{init_line, Firsts, Record, ADDRESSES, BEGINNING, LAST_VALUE};

/// Half of them are all 0, as before there were init lines. A pattern fills every address; other values stand at some addresses only, and mostly are
/// such as are written too, there or elsewhere.
pub(super) fn drawn(chance: &mut Chance) -> Firsts {
    let mut firsts = [BEGINNING; ADDRESSES];
    match chance.below(12) {
        0..=5 => {}
        6 => firsts.fill(*chance.of(&[1, 7, 43_690, LAST_VALUE])),
        7 => firsts = std::array::from_fn(|address| 1 + address as u64),
        8 => firsts = std::array::from_fn(|_| chance.below(LAST_VALUE as usize + 1) as u64),
        _ => {
            let share = *chance.of(&[10, 30, 60, 90]);
            firsts = std::array::from_fn(|_| if chance.percent(share) { low(chance) } else { BEGINNING });
        }
    }
    firsts
}

fn low(chance: &mut Chance) -> u64 {
    let most = *chance.of(&[3, 80]);
    chance.between(1, most) as u64
}

/// The init lines of these first values, in any order; at times some addresses that begin at 0 have one too.
pub(super) fn init_lines(chance: &mut Chance, firsts: &Firsts) -> Vec<String> {
    let zeros = *chance.of(&[0, 0, 0, 0, 10, 50, 100]);
    let told: Vec<usize> = (0..ADDRESSES).filter(|&address| firsts[address] != BEGINNING || chance.percent(zeros)).collect();
    let mut lines: Vec<String> = told.into_iter().map(|address| init_line(address, firsts[address])).collect();
    if chance.percent(50) {
        chance.shuffle(&mut lines);
    }
    lines
}

/// A text of these records behind these first values, mostly with other threads that leave no gap.
pub(super) fn text_of(chance: &mut Chance, firsts: &Firsts, records: &[Record]) -> Vec<u8> {
    let inits = init_lines(chance, firsts);
    let records = numbered(chance, records);
    let lines = inits.into_iter().chain(records.iter().map(Record::to_string));
    lines.map(|line| line + "\n").collect::<String>().into_bytes()
}
