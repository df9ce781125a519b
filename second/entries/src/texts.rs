//! A text: the whole answer, what is wrong with it and where, the verdict in numbers, the judge.

use crate::call::{Call, LAST_MODEL, OTHER_MODELS};
use crate::case::Case;
use crate::cuts;
use crate::desk::Desk;
use crate::lent::Lent;
use crate::{machines, packs, papers};
use second::desk::{lay_verdict, number_at, JUDGEMENT, LIMITED, NONE_LEFT, OPERATIONS_AT, ORDER, RULES_AT, VERDICT};
use second::lists::drawn;
use second::report::NOT_KNOWN;
use second::trace::{Model, Trace, MODELS, MOST_RECORDS};
use second::verdict::Verdict;
use wheelotter::REPORT;

pub fn compare<D: Desk>(case: &mut Case<'_, D>) {
    let readings = readings(case);
    let report = report(case);
    let verdicts = verdicts(case);
    let limits = limits(case);
    let judged = judged(case);
    let machines = machines::compare(case);
    let cuts = cuts::compare(case);
    let papers = papers::compare(case);
    let packs = packs::compare(case);
    if !(readings && report && verdicts && limits && judged && machines && cuts && papers && packs) {
        case.counts.texts_failed += 1;
    } else if case.page.trace().is_some() && case.page.output().contains(NOT_KNOWN) {
        case.counts.not_known += 1;
    } else {
        case.counts.texts += 1;
    }
}

/// What the reader says.
fn readings<D: Desk>(case: &mut Case<'_, D>) -> bool {
    let (desk, text) = (case.desk, case.text);
    let (number, line) = (case.page.number().into(), case.page.line());
    let (start, end) = (case.page.start(), case.page.end());
    let number = case.same_answer(Call::Number, number, desk.number(text).into());
    let line = case.same_answer(Call::Line, line, desk.line(text));
    let start = case.same_answer(Call::Start, start, desk.start(text));
    let end = case.same_answer(Call::End, end, desk.end(text));
    number && line && start && end
}

/// The whole answer in memory that is wide, just wide enough, or not.
fn report<D: Desk>(case: &mut Case<'_, D>) -> bool {
    let output = case.page.output();
    if output.contains(NOT_KNOWN) {
        return true;
    }
    let needed = output.len();
    let rooms = [0, 1, needed - 1, needed, needed + 1, REPORT - 1, REPORT, REPORT, REPORT + 84];
    let room = *case.chance.of(&rooms);
    let mut mine = Lent::drawn(&mut case.chance, room);
    let mut theirs = mine.clone();
    let wanted = case.page.report(mine.bytes_mut());
    let got = case.desk.report(case.text, theirs.bytes_mut());
    case.same(Call::Report { room }, (wanted, &mine), (got, &theirs))
}

/// Every model with room enough, one that there is not, and memory that is too short.
fn verdicts<D: Desk>(case: &mut Case<'_, D>) -> bool {
    let chance = &mut case.chance;
    let any = if chance.percent(60) { chance.between(1, MODELS) as u8 } else { *chance.of(&OTHER_MODELS) };
    let enough = [VERDICT, VERDICT, VERDICT + 1, VERDICT + 71, chance.between(VERDICT, 2 * VERDICT)];
    let short = [0, 1, OPERATIONS_AT, RULES_AT, VERDICT - 1, VERDICT - 1, chance.below(VERDICT)];
    let mut asked: Vec<(u8, usize)> = (1..=LAST_MODEL).map(|model| (model, *chance.of(&enough))).collect();
    asked.push((*chance.of(&OTHER_MODELS), *chance.of(&enough)));
    asked.push((any, *chance.of(&short)));
    asked.into_iter().fold(true, |same, (model, room)| verdict(case, model, room) && same)
}

fn verdict<D: Desk>(case: &mut Case<'_, D>, model: u8, room: usize) -> bool {
    let mut mine = Lent::drawn(&mut case.chance, room);
    let mut theirs = mine.clone();
    let got = case.desk.verdict(case.text, model, theirs.bytes_mut());
    match case.page.verdict(model, mine.bytes_mut()) {
        Some(wanted) => case.same(Call::Verdict { model, room }, (wanted.into(), &mine), (got.into(), &theirs)),
        None => may_be(case, model, got, mine, theirs),
    }
}

/// Where the second reading does not know, an order has to be valid, and none left may be; the bytes have to be those of either.
fn may_be<D: Desk>(case: &mut Case<'_, D>, model: u8, got: u8, mut mine: Lent, theirs: Lent) -> bool {
    let room = theirs.bytes().len();
    let named = number_at(theirs.bytes()).min(MOST_RECORDS);
    let list: Vec<usize> = theirs.bytes()[OPERATIONS_AT..].chunks(2).take(named).map(number_at).collect();
    let numbers: Vec<u16> = list.iter().map(|&x| x as u16).collect();
    let wanted = if got == ORDER && case.page.judge(model, &numbers) { ORDER } else { NONE_LEFT };
    lay_verdict(&mut mine.bytes_mut()[..VERDICT], if wanted == ORDER { &list } else { &[] }, &[]);
    case.same(Call::Verdict { model, room }, (wanted.into(), &mine), (got.into(), &theirs))
}

/// Every model at the count of steps, one below it, at 0 and at the largest limit; one model that there is not, and memory that is too short.
fn limits<D: Desk>(case: &mut Case<'_, D>) -> bool {
    let chance = &mut case.chance;
    let short = [0, 1, VERDICT, LIMITED - 1, LIMITED - 1, chance.below(LIMITED)];
    let mut asked = vec![(chance.between(1, MODELS) as u8, 0, *chance.of(&short)), (*chance.of(&OTHER_MODELS), 7, LIMITED)];
    for &model in Model::all() {
        let room = LIMITED + chance.below(3);
        let limits = match case.page.plain_under(model) {
            // A search that is too long for the second reading may be so for anybody: only limits that it has passed are asked.
            None => vec![0, chance.below(case.page.most_steps() as usize) as u64],
            Some((_, 0)) => vec![0, u64::MAX],
            Some((_, count)) => vec![0, count - 1, *count, *chance.of(&[count + 1, u64::MAX])],
        };
        asked.extend(limits.into_iter().map(|limit| (model.number() as u8, limit, room)));
    }
    asked.into_iter().fold(true, |same, (model, limit, room)| limited(case, model, limit, room) && same)
}

fn limited<D: Desk>(case: &mut Case<'_, D>, model: u8, limit: u64, room: usize) -> bool {
    let mut mine = Lent::drawn(&mut case.chance, room);
    let mut theirs = mine.clone();
    let Some(wanted) = case.page.limited(model, limit, mine.bytes_mut()) else { return true };
    let got = case.desk.limited(case.text, model, limit, theirs.bytes_mut());
    case.same(Call::Limited { model, limit, room }, (wanted.into(), &mine), (got.into(), &theirs))
}

/// Lists that are orders, are nearly so, and are nothing of the kind.
fn judged<D: Desk>(case: &mut Case<'_, D>) -> bool {
    let mut same = true;
    for _ in 0..3 {
        let list = list(case);
        let model = if case.chance.percent(90) { case.chance.between(1, MODELS) as u8 } else { *case.chance.of(&OTHER_MODELS) };
        let room = if case.chance.percent(85) { JUDGEMENT + case.chance.below(3) } else { case.chance.below(JUDGEMENT) };
        let mut mine = Lent::drawn(&mut case.chance, room);
        let mut theirs = mine.clone();
        let wanted = case.page.judgement(model, &list, mine.bytes_mut());
        let got = case.desk.judge(case.text, model, &list, theirs.bytes_mut());
        same &= case.same(Call::Judge { model, list, room }, (wanted.into(), &mine), (got.into(), &theirs));
    }
    same
}

fn list<D: Desk>(case: &mut Case<'_, D>) -> Vec<u16> {
    let model = *case.chance.of(Model::all());
    let order = match case.page.verdict_under(model) {
        Some(Verdict::Order(list)) => Some(&list[..]),
        _ => None,
    };
    let nothing = Trace::empty();
    drawn(&mut case.chance, case.page.trace().unwrap_or(&nothing), order)
}
