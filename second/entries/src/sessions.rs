//! Sessions on a text: opened in memory of any length, then driven by chance calls, records that are added among them; in between, damaged copies
//! are handed in.

use crate::call::{Call, OTHER_MODELS};
use crate::case::{Case, Step};
use crate::damage::damaged;
use crate::desk::Desk;
use crate::lent::Lent;
use crate::records::fields;
use second::chance::Chance;
use second::desk::{self, bytes_of, head_of, lay_waiting, told, CONTRADICTED_AT, DONE, HEAD, NO_ENTRY, NO_SESSION, PLACE};
use second::packed::{file_of, HEADER, RECORD};
use second::session::Talk;
use second::trace::{Trace, MODELS, MOST_RECORDS};

/// How a talk is drawn: its length, and how often each hundred calls suppose.
struct Manner {
    calls: usize,
    supposes: usize,
    damages: usize,
}

pub fn compare<D: Desk>(case: &mut Case<'_, D>) {
    case.steps.clear();
    talk(case);
}

/// Long talks cost much on long traces; short ones are many times as fast, and there are enough of them. Every bound is met on both.
fn manner(chance: &mut Chance, operations: usize) -> Manner {
    let many = chance.percent(if operations <= 12 { 8 } else { 2 });
    let calls = match operations {
        _ if many => chance.between(19, 26),
        0..=12 => chance.between(1, 12),
        13..=24 => chance.between(1, 6),
        _ => chance.between(1, 3),
    };
    Manner { calls, supposes: if many { 88 } else { 45 }, damages: if operations <= 24 { 25 } else { 10 } }
}

/// False where something differed: what would follow is then worth nothing.
fn talk<D: Desk>(case: &mut Case<'_, D>) -> bool {
    let room = room(case);
    let model = if case.chance.percent(92) { case.chance.between(1, MODELS) as u8 } else { *case.chance.of(&OTHER_MODELS) };
    let mut mine = Lent::drawn(&mut case.chance, room);
    let mut theirs = mine.clone();
    let (wanted, talk) = case.page.open(model, mine.bytes_mut());
    let got = case.desk.open(case.text, model, theirs.bytes_mut());
    if !noted(case, Call::Open { model, room }, (wanted, &mine), (got, &theirs)) {
        return false;
    }
    let Some(mut talk) = talk else { return handed(case, mine, "memory that was too short") };
    let operations = talk.session().trace.operations().len();
    let manner = if wanted == DONE { manner(&mut case.chance, operations) } else { Manner { calls: 1, supposes: 40, damages: 30 } };
    let length = HEAD + file_of(&talk.session().trace).len();
    if room > length && case.chance.percent(30) && !handed(case, mine.clone(), "with what lies behind it") {
        return false;
    }
    let mut standing = Lent::of(&mine.bytes()[..length]);
    (0..manner.calls).all(|_| {
        let harm = case.chance.percent(manner.damages);
        (!harm || damaged_copy(case, standing.bytes())) && step(case, &mut talk, &mut standing, &manner)
    })
}

/// Mostly what is needed or a little more; at times too little.
fn room<D: Desk>(case: &mut Case<'_, D>) -> usize {
    let nothing = Trace::empty();
    let file = file_of(case.page.trace().unwrap_or(&nothing));
    let (chance, needed) = (&mut case.chance, HEAD + file.len());
    match chance.below(20) {
        0 => needed - 1,
        1 => *chance.of(&[0, 1, CONTRADICTED_AT, HEAD - 1, HEAD, HEAD + HEADER - 1, HEAD + HEADER]),
        2 => chance.below(needed),
        3..=5 => needed + *chance.of(&[1, 8, 13, 64]),
        6 => needed + chance.below(300),
        _ => needed,
    }
}

fn noted<D: Desk>(case: &mut Case<'_, D>, call: Call, (wanted, mine): (u8, &Lent), (got, theirs): (u8, &Lent)) -> bool {
    let same = case.same(call, (wanted.into(), mine), (got.into(), theirs));
    if same {
        case.counts.calls += 1;
    } else {
        case.counts.calls_failed += 1;
    }
    same
}

/// One call on the session that stands, which both sides have in the same bytes.
fn step<D: Desk>(case: &mut Case<'_, D>, talk: &mut Talk, standing: &mut Lent, manner: &Manner) -> bool {
    let call = drawn(&mut case.chance, &talk.session().trace, manner.supposes);
    match call {
        Call::Add { .. } => return grown(case, call, talk, standing),
        Call::Waiting { room } => {
            let waits = talk.waiting();
            return looked(case, room, standing.bytes(), |lent| lay_waiting(waits, lent));
        }
        _ => {}
    }
    let mut theirs = standing.clone();
    let got = called(case.desk, &call, theirs.bytes_mut());
    let wanted = match call {
        Call::Suppose { x, y } => talk.suppose(x, y).map_or_else(|number| number, |()| DONE),
        Call::TakeBack => talk.take_back().map_or_else(|number| number, |()| DONE),
        Call::Ask { x, y } => talk.ask(x, y).map_or_else(|number| number, told),
        _ => unreachable!("not on a session"),
    };
    if wanted == DONE {
        standing.bytes_mut()[..HEAD].copy_from_slice(&head_of(talk.session()));
    }
    noted(case, call, (wanted, standing), (got, &theirs))
}

/// A record more, in memory that is eight bytes longer.
fn grown<D: Desk>(case: &mut Case<'_, D>, call: Call, talk: &mut Talk, standing: &mut Lent) -> bool {
    let Call::Add { fields } = call else { unreachable!("a record is added") };
    let mut mine = Lent::of(&[standing.bytes(), &case.chance.bytes(RECORD)].concat());
    let mut theirs = mine.clone();
    let got = case.desk.add(theirs.bytes_mut(), &fields);
    let wanted = match fields.record() {
        None => NO_ENTRY,
        Some(record) => talk.add(record).map_or_else(|number| number, |()| DONE),
    };
    if wanted == DONE {
        mine.bytes_mut().copy_from_slice(&bytes_of(talk.session()));
        *standing = mine.clone();
    }
    noted(case, call, (wanted, &mine), (got, &theirs))
}

/// Who waits, in memory that may be too short for the number.
fn looked<D: Desk>(case: &mut Case<'_, D>, room: usize, session: &[u8], wanted: impl Fn(&mut [u8]) -> u8) -> bool {
    let mut mine = Lent::drawn(&mut case.chance, room);
    let mut theirs = mine.clone();
    let got = case.desk.waiting(session, theirs.bytes_mut());
    let wanted = wanted(mine.bytes_mut());
    noted(case, Call::Waiting { room }, (wanted, &mine), (got, &theirs))
}

fn damaged_copy<D: Desk>(case: &mut Case<'_, D>, bytes: &[u8]) -> bool {
    let (what, bytes) = damaged(&mut case.chance, bytes);
    handed(case, Lent::of(&bytes), what)
}

/// One call on bytes that may be no session: the second reading takes them apart by itself.
fn handed<D: Desk>(case: &mut Case<'_, D>, mut mine: Lent, what: &'static str) -> bool {
    let trace = case.page.trace().cloned().unwrap_or(Trace::empty());
    let call = drawn(&mut case.chance, &trace, 34);
    case.steps.push(Step::Done(format!("a copy: {what}")));
    case.counts.damaged += 1;
    if let Call::Waiting { room } = call {
        let bytes = mine.bytes().to_vec();
        return looked(case, room, &bytes, |lent| desk::waiting(&bytes, lent));
    }
    if matches!(call, Call::Add { .. }) && case.chance.percent(85) {
        mine = Lent::of(&[mine.bytes(), &case.chance.bytes(RECORD)].concat());
    }
    let mut theirs = mine.clone();
    let got = called(case.desk, &call, theirs.bytes_mut());
    let wanted = match call {
        Call::Suppose { x, y } => desk::suppose(mine.bytes_mut(), x, y),
        Call::TakeBack => desk::take_back(mine.bytes_mut()),
        Call::Ask { x, y } => desk::ask(mine.bytes(), x, y),
        Call::Add { ref fields } => desk::add(mine.bytes_mut(), fields),
        _ => unreachable!("not on a session"),
    };
    case.counts.still_sessions += u64::from(wanted != NO_SESSION);
    noted(case, call, (wanted, &mine), (got, &theirs))
}

fn called(desk: &impl Desk, call: &Call, session: &mut [u8]) -> u8 {
    match *call {
        Call::Suppose { x, y } => desk.suppose(session, x, y),
        Call::TakeBack => desk.take_back(session),
        Call::Ask { x, y } => desk.ask(session, x, y),
        Call::Add { ref fields } => desk.add(session, fields),
        _ => unreachable!("not on a session"),
    }
}

fn drawn(chance: &mut Chance, trace: &Trace, supposes: usize) -> Call {
    if chance.percent(22) {
        return Call::Add { fields: fields(chance, trace) };
    }
    if chance.percent(6) {
        return Call::Waiting { room: *chance.of(&[0, 1, PLACE, PLACE, PLACE, PLACE + 1, 64]) };
    }
    let kind = chance.below(100);
    if kind >= supposes && chance.percent(35) {
        return Call::TakeBack;
    }
    let operations = trace.operations();
    let (x, mut y) = (number(chance, trace, &operations), number(chance, trace, &operations));
    if x == y && chance.percent(80) {
        y = number(chance, trace, &operations);
    }
    // Runs stand mostly in the order in which they were run: the lower number first contradicts less.
    let (x, y) = if chance.percent(65) { (x.min(y), x.max(y)) } else { (x, y) };
    if kind < supposes {
        Call::Suppose { x, y }
    } else {
        Call::Ask { x, y }
    }
}

/// Mostly an operation; at times a fence, past the end, or a number that would be one if its higher bits were lost.
fn number(chance: &mut Chance, trace: &Trace, operations: &[usize]) -> usize {
    if operations.is_empty() || chance.percent(4) {
        let low = chance.below(MOST_RECORDS);
        let far = [low + MOST_RECORDS, low + 256, low + (1 << 16), low + (1 << 32), usize::MAX, usize::MAX - low];
        let near = [0, trace.count, trace.count + 1, MOST_RECORDS - 1, MOST_RECORDS, MOST_RECORDS + 1];
        return if chance.percent(60) { *chance.of(&near) } else { *chance.of(&far) };
    }
    if chance.percent(4) {
        chance.below(trace.count)
    } else {
        *chance.of(operations)
    }
}
