//! Records to be added by chance: mostly good ones, whose values are few, so that loads wait and their sources come.

use second::chance::Chance;
use second::desk::Fields;
use second::trace::{Trace, LAST_ADDRESS, LAST_THREAD, LAST_VALUE};

pub fn fields(chance: &mut Chance, trace: &Trace) -> Fields {
    let kind = if chance.percent(3) { *chance.of(&[4, 5, 128, 255]) } else { *chance.of(&[0, 0, 0, 0, 1, 1, 1, 1, 2, 2, 3]) };
    let thread =
        if chance.percent(3) { *chance.of(&[LAST_THREAD as u8 + 1, 9, 255]) } else { chance.below(LAST_THREAD as usize + 1) as u8 };
    let address = if chance.percent(3) { *chance.of(&[LAST_ADDRESS as u8 + 1, 17, 255]) } else { address(chance, trace) };
    let (read, written) = (value(chance, trace, address), value(chance, trace, address));
    let stray = chance.percent(3);
    let only = |used: bool, number: u16| if used || stray { number } else { 0 };
    Fields {
        kind,
        thread,
        address: if kind == 3 && !stray { 0 } else { address },
        read: only(kind == 0 || kind == 2, read),
        written: only(kind == 1 || kind == 2, written),
    }
}

/// Mostly one that a record has already.
fn address(chance: &mut Chance, trace: &Trace) -> u8 {
    let used: Vec<u64> = trace.records().iter().filter_map(|record| record.address()).collect();
    if used.is_empty() || chance.percent(15) {
        chance.below(LAST_ADDRESS as usize + 1) as u8
    } else {
        *chance.of(&used) as u8
    }
}

/// The address's first value, one that was written or read there, or any.
fn value(chance: &mut Chance, trace: &Trace, address: u8) -> u16 {
    let there = trace.records().iter().filter(|record| record.address() == Some(address.into()));
    let mut seen: Vec<u64> = there.flat_map(|record| [record.read(), record.written()]).flatten().collect();
    seen.push(trace.first(address.into()));
    match chance.below(10) {
        0..=3 => *chance.of(&seen) as u16,
        4..=8 => chance.below(24) as u16,
        _ => chance.below(LAST_VALUE as usize + 1) as u16,
    }
}
