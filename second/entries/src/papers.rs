//! Papers. The small reader: lists of the second reading's own writer, whole and damaged, and of nobody. The library's writer: its lists keep what document 02 promises of
//! them, are accepted by both readers, and damaged ones by both or neither.

use crate::call::{Call, OTHER_MODELS};
use crate::case::Case;
use crate::desk::Desk;
use crate::signed::bytes;
use second::desk::{lay_paper, LIST_AT, NO_ROOM, SHOWN};
use second::papers::{broken, damaged, written};
use second::trace::Model;
use second::verdict::Verdict;

/// A paper whole and damaged three times over for each model under which the trace is faulty; elsewhere one by chance, and now and then no such model.
pub fn compare<D: Desk>(case: &mut Case<'_, D>) -> bool {
    let mut same = true;
    for &model in Model::all() {
        let number = if case.chance.percent(95) { model as u8 + 1 } else { *case.chance.of(&OTHER_MODELS) };
        let faulty = matches!(case.page.verdict_under(model), Some(Verdict::Circle(_) | Verdict::NoneLeft));
        let paper = case.page.trace().filter(|_| faulty).and_then(|trace| written(trace, model));
        if let Some(paper) = &paper {
            same &= accepts(case, number, paper.clone());
        }
        let front = paper.unwrap_or_else(|| SHORT.to_vec());
        for _ in 0..3 {
            let list = damaged(&mut case.chance, &front);
            same &= accepts(case, number, list);
        }
    }
    same
}

/// The paper of document 01's first trace under SC.
const SHORT: [u16; 24] = [1, 0, 1, 0, 4, 1, 2, 0, 1, 2, 3, 0, 4, 3, 0, 0, 0, 0, 0, 4, 0, 1, 2, 3];

fn accepts<D: Desk>(case: &mut Case<'_, D>, model: u8, list: Vec<u16>) -> bool {
    let wanted = case.page.accepts(model, &list);
    let got = case.desk.accepts(case.text, model, &list);
    case.same_answer(Call::Accepts { model, list }, wanted.into(), got.into())
}

/// Room that the library's lists are seen to fit into.
const ROOM: usize = 4096;

/// Of a longer list so many numbers are damaged, by chance; of a shorter one each.
const DAMAGED: usize = 24;

/// What the library writes under each model, and now and then under none; asked last, so that what is drawn for the other entries does not hang on it.
pub fn compare_written<D: Desk>(case: &mut Case<'_, D>) {
    let mut same = true;
    for &model in Model::all() {
        let number = if case.chance.percent(95) { model as u8 + 1 } else { *case.chance.of(&OTHER_MODELS) };
        same &= shown(case, number);
    }
    if !same {
        case.counts.texts_failed += 1;
    }
}

/// Asks for a paper in wide memory; where one is shown, also in memory that is just wide enough and in memory that is one number short.
fn shown<D: Desk>(case: &mut Case<'_, D>, model: u8) -> bool {
    let first = case.chance.draw() as u16;
    let before: Vec<u16> = (0..ROOM as u16 + 2).map(|place| first.wrapping_add(place)).collect();
    let mut theirs = before.clone();
    let got = case.desk.paper(case.text, model, &mut theirs[1..=ROOM]);
    let wanted = match case.page.paper_answer(model) {
        // no paper is held against a library that has no room, where this program finds none either
        Some(SHOWN) if got == NO_ROOM && case.page.paper(model, &mut vec![0; ROOM]).is_none() => return true,
        Some(wanted) => wanted,
        None if got == SHOWN => SHOWN,
        None => return true,
    };
    if wanted != SHOWN || got != SHOWN {
        return lent(case, model, (wanted, &before), (got, &theirs));
    }
    let length = usize::from(theirs[1]) + (usize::from(theirs[2]) << 16);
    let list: Vec<u16> = theirs[1 + LIST_AT..=ROOM].iter().copied().take(length).collect();
    let mut mine = before.clone();
    let laid = lay_paper(&list, &mut mine[1..=ROOM]);
    let mut same = lent(case, model, (laid, &mine), (got, &theirs));
    for room in [LIST_AT + length, LIST_AT + length - 1, case.chance.below(LIST_AT + length)] {
        let mut mine: Vec<u16> = before[..room + 2].to_vec();
        let mut theirs = mine.clone();
        let wanted = lay_paper(&list, &mut mine[1..=room]);
        let got = case.desk.paper(case.text, model, &mut theirs[1..=room]);
        same &= lent(case, model, (wanted, &mine), (got, &theirs));
    }
    same && keeps(case, model, &list)
}

/// The answer and all of the memory, a number before and behind with it, which nobody was lent.
fn lent<D: Desk>(case: &mut Case<'_, D>, model: u8, (wanted, mine): (u8, &[u16]), (got, theirs): (u8, &[u16])) -> bool {
    let call = Call::Paper { model, room: mine.len() - 2 };
    case.same(call, (wanted.into(), &bytes(mine, u16::to_le_bytes)), (got.into(), &bytes(theirs, u16::to_le_bytes)))
}

/// Whether a list that the library wrote keeps what is promised of it, here and by the library's own reader, and with a number changed is taken by both readers or by
/// neither.
fn keeps<D: Desk>(case: &mut Case<'_, D>, model: u8, list: &[u16]) -> bool {
    let named = Model::numbered(model.into()).expect("a paper was shown under it");
    if let Some(why) = case.page.trace().and_then(|trace| broken(trace, named, list)) {
        case.differences.push(format!("paper under {model}: {why}: {list:?}\n"));
        return false;
    }
    let mut same = accepts(case, model, list.to_vec());
    let places: Vec<usize> = match list.len() <= DAMAGED {
        true => (0..list.len()).collect(),
        false => (0..DAMAGED).map(|_| case.chance.below(list.len())).collect(),
    };
    for place in places {
        let mut other = list.to_vec();
        other[place] = if case.chance.percent(50) { other[place].wrapping_add(1) } else { other[place].wrapping_sub(1) };
        same &= accepts(case, model, other);
    }
    same
}
