//! A faulty trace cut down. The second reading looks for the lowest record again and again, so only short traces are asked.

use crate::call::{Call, OTHER_MODELS};
use crate::case::Case;
use crate::desk::Desk;
use crate::lent::Lent;
use second::desk::LEFT;
use second::trace::{text_of, MODELS};

/// Longer traces are not cut down here; `bin/cuts` cuts longer ones, by hand.
const FEW: usize = 12;

/// One model with memory that is wide, just wide enough, or not; at times one that there is not.
pub fn compare<D: Desk>(case: &mut Case<'_, D>) -> bool {
    let model = if case.chance.percent(95) { case.chance.between(1, MODELS) as u8 } else { *case.chance.of(&OTHER_MODELS) };
    if case.page.trace().is_some_and(|trace| trace.count > FEW) {
        return true;
    }
    let whole = case.page.trace().map_or(0, |trace| LEFT + text_of(trace).len());
    let mut wide = vec![0; whole];
    let Some(_) = case.page.smaller(model, &mut wide) else { return true };
    let needed = LEFT + usize::from(u16::from_le_bytes([wide.get(2).copied().unwrap_or(0), wide.get(3).copied().unwrap_or(0)]));
    let rooms = [0, 2, LEFT - 1, LEFT, needed - 1, needed - 1, needed, needed, needed, needed + 1, whole + 71];
    let room = *case.chance.of(&rooms);
    let mut mine = Lent::drawn(&mut case.chance, room);
    let mut theirs = mine.clone();
    let Some(wanted) = case.page.smaller(model, mine.bytes_mut()) else { return true };
    let got = case.desk.smaller(case.text, model, theirs.bytes_mut());
    case.same(Call::Smaller { model, room }, (wanted.into(), &mine), (got.into(), &theirs))
}
