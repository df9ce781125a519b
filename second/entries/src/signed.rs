//! Signatures: how many words and reads a text's program has, its reads packed, words unpacked, and runs judged by their words.

use crate::call::{Call, LAST_MODEL, OTHER_MODELS};
use crate::case::Case;
use crate::desk::Desk;
use crate::lent::Lent;
use second::nights::{night_into, BLOCK};
use second::signatures::{layout, list, loads, pack, pack_into, unpack_into};
use second::trace::Trace;

pub fn compare<D: Desk>(case: &mut Case<'_, D>) {
    let sizes = sizes(case);
    let packed = packed(case);
    let unpacked = unpacked(case);
    if !(sizes && packed && unpacked) {
        case.counts.texts_failed += 1;
    }
}

/// Runs judged by their words; asked last, so that what is drawn for the other entries does not hang on it.
pub fn compare_runs<D: Desk>(case: &mut Case<'_, D>) {
    if !judged(case) {
        case.counts.texts_failed += 1;
    }
}

fn counts<D: Desk>(case: &Case<'_, D>) -> (usize, usize) {
    case.page.trace().map_or((0, 0), |trace| (layout(trace).len(), loads(trace).len()))
}

fn sizes<D: Desk>(case: &mut Case<'_, D>) -> bool {
    let (desk, text) = (case.desk, case.text);
    let (words, reads) = counts(case);
    let words = case.same_answer(Call::Words, words, desk.words(text));
    let loads = case.same_answer(Call::Loads, reads, desk.loads(text));
    words && loads
}

/// Mostly the right length, now and then one more or fewer.
fn room<D: Desk>(case: &mut Case<'_, D>, right: usize) -> usize {
    match case.chance.below(12) {
        0 => right + 1,
        1 => right.saturating_sub(1),
        _ => right,
    }
}

/// Words and reads as bytes, so that all of them are compared.
pub fn bytes<const N: usize, T: Copy>(list: &[T], of: impl Fn(T) -> [u8; N]) -> Lent {
    Lent::of(&list.iter().flat_map(|&x| of(x)).collect::<Vec<u8>>())
}

fn packed<D: Desk>(case: &mut Case<'_, D>) -> bool {
    let right = counts(case).0;
    let room = room(case, right);
    // a word before and behind, which nobody is lent
    let mut mine: Vec<u64> = (0..room + 2).map(|_| case.chance.draw()).collect();
    let mut theirs = mine.clone();
    let wanted = match case.page.trace() {
        Some(trace) => pack_into(trace, &mut mine[1..=room]),
        None => case.page.number().into(),
    };
    let got = case.desk.signature(case.text, &mut theirs[1..=room]);
    case.same(Call::Signature { room }, (wanted, &bytes(&mine, u64::to_le_bytes)), (got, &bytes(&theirs, u64::to_le_bytes)))
}

/// The words of some reads, nearly so, and any words whatever.
fn words<D: Desk>(case: &mut Case<'_, D>) -> Vec<u64> {
    let nothing = Trace::empty();
    let trace = case.page.trace().unwrap_or(&nothing).clone();
    let mut reads = vec![0; trace.count];
    for load in loads(&trace) {
        let choices = list(&trace, load);
        reads[load] = match case.chance.below(3) {
            0 => choices[choices.len() - 1],
            _ => *case.chance.of(&choices),
        };
    }
    let mut words = pack(&trace, |load| reads[load]).expect("listed");
    let kind = case.chance.below(5);
    if !words.is_empty() {
        let place = case.chance.below(words.len());
        match kind {
            0 => words[place] = words[place].wrapping_add(1),
            1 => words[place] = case.chance.draw(),
            _ => {}
        }
    }
    let room = room(case, words.len());
    words.resize(room, 0);
    words
}

fn unpacked<D: Desk>(case: &mut Case<'_, D>) -> bool {
    let right = counts(case).1;
    let (words, room) = (words(case), room(case, right));
    let before = words.clone();
    let mut mine: Vec<u16> = (0..room + 2).map(|_| case.chance.draw() as u16).collect();
    let mut theirs = mine.clone();
    let wanted = match case.page.trace() {
        Some(trace) => unpack_into(trace, &words, &mut mine[1..=room]),
        None => case.page.number().into(),
    };
    let got = case.desk.reads(case.text, &words, &mut theirs[1..=room]);
    let kept = before == words;
    case.same(Call::Reads { words, room }, (wanted, &bytes(&mine, u16::to_le_bytes)), (got, &bytes(&theirs, u16::to_le_bytes))) && kept
}

/// Up to three runs under one model: mostly words of listed reads, now and then one that is too large, words too many or a block that is not whole.
fn judged<D: Desk>(case: &mut Case<'_, D>) -> bool {
    let runs = case.chance.below(4);
    let model = if case.chance.percent(85) { case.chance.between(1, LAST_MODEL.into()) as u8 } else { *case.chance.of(&OTHER_MODELS) };
    let each = counts(case).0;
    let mut list: Vec<u64> = (0..runs).flat_map(|_| run_words(case, each)).collect();
    let right = list.len();
    let many = room(case, right);
    list.resize(many, 0);
    let numbers = room(case, runs * BLOCK);
    let before = list.clone();
    let mut mine: Vec<u16> = (0..numbers + 2).map(|_| case.chance.draw() as u16).collect();
    let mut theirs = mine.clone();
    let wanted = match case.page.trace() {
        Some(trace) => night_into(trace, model, &list, &mut mine[1..=numbers], case.page.most_steps()),
        None => Some(case.page.number().into()),
    };
    // what is not known here is not compared
    let Some(wanted) = wanted else { return true };
    let got = case.desk.night(case.text, model, &list, &mut theirs[1..=numbers]);
    let kept = before == list;
    let call = Call::Night { model, words: list, room: numbers };
    case.same(call, (wanted, &bytes(&mine, u16::to_le_bytes)), (got, &bytes(&theirs, u16::to_le_bytes))) && kept
}

/// The words of one run, as many as there should be.
fn run_words<D: Desk>(case: &mut Case<'_, D>, each: usize) -> Vec<u64> {
    let mut run = words(case);
    run.resize(each, 0);
    run
}
