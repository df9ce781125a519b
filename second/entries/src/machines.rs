//! The plain machine: runs by steps, steps from orders, and whether it agrees with the verdict.

use crate::call::{Call, OTHER_MODELS};
use crate::case::Case;
use crate::desk::Desk;
use crate::lent::Lent;
use second::desk::{number_at, NO_ORDER, ORDER, PLACE, REPLAY, REPLAYED, STEPS_AT, THROUGH, VERDICT};
use second::lists::{drawn, drawn_steps};
use second::plain::{has_machine, some_steps, steps_of};
use second::trace::{Model, Trace};
use second::verdict::Verdict;

/// Of so few operations every state of the machine is looked at.
const FEW: usize = 6;

pub fn compare<D: Desk>(case: &mut Case<'_, D>) -> bool {
    let mut same = true;
    for &model in Model::all().iter().filter(|&&model| has_machine(model)) {
        same &= ran(case, model) && replayed(case, model) && agrees(case, model);
    }
    same
}

/// The order of the verdict, where there is one.
fn order<D: Desk>(case: &Case<'_, D>, model: Model) -> Option<Vec<usize>> {
    match case.page.verdict_under(model) {
        Some(Verdict::Order(list)) => Some(list.clone()),
        _ => None,
    }
}

/// Now and then a model that has no machine, or is none.
fn number_of<D: Desk>(case: &mut Case<'_, D>, model: Model) -> u8 {
    match case.chance.below(20) {
        0 => *case.chance.of(&[3, 4]),
        1 => *case.chance.of(&OTHER_MODELS),
        _ => model.number() as u8,
    }
}

fn room<D: Desk>(case: &mut Case<'_, D>, enough: usize) -> usize {
    if case.chance.percent(90) {
        enough + case.chance.below(3)
    } else {
        case.chance.below(enough)
    }
}

/// Steps that run through, nearly so, and nothing of the kind.
fn ran<D: Desk>(case: &mut Case<'_, D>, model: Model) -> bool {
    let mut same = true;
    for _ in 0..2 {
        let nothing = Trace::empty();
        let known = order(case, model).and_then(|list| steps_of(case.page.trace()?, model, &list));
        let steps = drawn_steps(&mut case.chance, case.page.trace().unwrap_or(&nothing), model, known.as_deref());
        let (number, room) = (number_of(case, model), room(case, PLACE));
        let mut mine = Lent::drawn(&mut case.chance, room);
        let mut theirs = mine.clone();
        let wanted = case.page.run(number, &steps, mine.bytes_mut());
        let got = case.desk.run(case.text, number, &steps, theirs.bytes_mut());
        same &= case.same(Call::Run { model: number, steps, room }, (wanted.into(), &mine), (got.into(), &theirs));
    }
    same
}

/// The steps of orders and of other lists; those of an order are run.
fn replayed<D: Desk>(case: &mut Case<'_, D>, model: Model) -> bool {
    let known = order(case, model);
    let nothing = Trace::empty();
    let list = drawn(&mut case.chance, case.page.trace().unwrap_or(&nothing), known.as_deref());
    let (number, room) = (number_of(case, model), room(case, REPLAY));
    let mut mine = Lent::drawn(&mut case.chance, room);
    let mut theirs = mine.clone();
    let wanted = case.page.steps(number, &list, mine.bytes_mut());
    let got = case.desk.steps(case.text, number, &list, theirs.bytes_mut());
    case.same(Call::Steps { model: number, list, room }, (wanted.into(), &mine), (got.into(), &theirs))
        && (got != REPLAYED || through(case, number, theirs.bytes()))
}

/// Steps that were handed out run through.
fn through<D: Desk>(case: &mut Case<'_, D>, model: u8, bytes: &[u8]) -> bool {
    let steps = bytes[STEPS_AT..][..number_at(bytes).min(REPLAY - STEPS_AT)].to_vec();
    let mut theirs = Lent::of(&[0; PLACE]);
    let got = case.desk.run(case.text, model, &steps, theirs.bytes_mut());
    case.same(Call::Run { model, steps, room: PLACE }, (THROUGH.into(), &Lent::of(&[0; PLACE])), (got.into(), &theirs))
}

/// Where the library has an order, its steps run through; of a few operations, where it has none, no steps do.
fn agrees<D: Desk>(case: &mut Case<'_, D>, model: Model) -> bool {
    let Some(few) = case.page.trace().map(|trace| trace.operations().len() <= FEW) else { return true };
    let mut verdict = [0; VERDICT];
    let number = model.number() as u8;
    let has = case.desk.verdict(case.text, number, &mut verdict) == ORDER;
    let told = if has { "has" } else { "has no" };
    if few && some_steps(case.page.trace().expect("a good text"), model) != has {
        case.differences.push(format!("the verdict {told} order under {number}, and the machine differs\n"));
        return false;
    }
    let list: Vec<u16> = verdict[2..].chunks(2).take(number_at(&verdict)).map(|x| number_at(x) as u16).collect();
    let mut mine = Lent::of(&[0; REPLAY]);
    let mut theirs = mine.clone();
    let wanted = case.page.steps(number, &list, mine.bytes_mut());
    let got = case.desk.steps(case.text, number, &list, theirs.bytes_mut());
    let wanted = if has { REPLAYED } else { wanted };
    let same = case.same(Call::Steps { model: number, list, room: REPLAY }, (wanted.into(), &mine), (got.into(), &theirs));
    same && (got != REPLAYED || through(case, number, theirs.bytes())) && (has || got == NO_ORDER)
}
