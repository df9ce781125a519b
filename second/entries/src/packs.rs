//! Packed files: the text's own, and such as are nearly so, or nothing of the kind; what is wrong with each, its text, and a session opened on it.

use crate::call::{Call, OTHER_MODELS};
use crate::case::{Case, Step};
use crate::desk::Desk;
use crate::lent::Lent;
use second::desk::HEAD;
use second::files::drawn;
use second::packed::{file_of, read};
use second::packs::{self, BYTES_AT};
use second::trace::{text_of, Trace, MODELS};

/// So many files are drawn on each text.
const FILES: usize = 3;

pub fn compare<D: Desk>(case: &mut Case<'_, D>) -> bool {
    let nothing = Trace::empty();
    let trace = case.page.trace().unwrap_or(&nothing).clone();
    let mut same = packed(case, &trace);
    for _ in 0..FILES {
        let (what, file) = drawn(&mut case.chance, &trace);
        same &= looked_at(case, &what, &file);
    }
    same
}

/// Just enough room, a little more or less, or hardly any.
fn room<D: Desk>(case: &mut Case<'_, D>, needed: usize) -> usize {
    let any = case.chance.below(needed + 1);
    *case.chance.of(&[needed, needed, needed, needed + 1, needed + 70, needed - 1, needed - 1, 0, 1, BYTES_AT, any])
}

fn packed<D: Desk>(case: &mut Case<'_, D>, trace: &Trace) -> bool {
    let room = room(case, BYTES_AT + file_of(trace).len());
    let mut mine = Lent::drawn(&mut case.chance, room);
    let mut theirs = mine.clone();
    let wanted = packs::pack(&case.page, mine.bytes_mut());
    let got = case.desk.pack(case.text, theirs.bytes_mut());
    case.same(Call::Pack { room }, (wanted.into(), &mine), (got.into(), &theirs))
}

/// A session opened on any file.
fn opened<D: Desk>(case: &mut Case<'_, D>, file: &[u8]) -> bool {
    let model = if case.chance.percent(92) { case.chance.between(1, MODELS) as u8 } else { *case.chance.of(&OTHER_MODELS) };
    let needed = HEAD + file_of(&read(file).unwrap_or(Trace::empty())).len();
    let room = room(case, needed);
    let mut mine = Lent::drawn(&mut case.chance, room);
    let mut theirs = mine.clone();
    let wanted = packs::open(file, model, mine.bytes_mut());
    let got = case.desk.open_file(file, model, theirs.bytes_mut());
    case.same(Call::OpenFile { model, room }, (wanted.into(), &mine), (got.into(), &theirs))
}

/// Number, line, text and session of any file.
pub fn looked_at<D: Desk>(case: &mut Case<'_, D>, what: &str, file: &[u8]) -> bool {
    case.steps.push(Step::Done(format!("{what}: {file:?}")));
    let lent = Lent::of(file);
    let number = case.same_answer(Call::FileNumber, packs::number(file).into(), case.desk.file_number(lent.bytes()).into());
    let line = case.same_answer(Call::FileLine, packs::line(file), case.desk.file_line(lent.bytes()));
    let needed = BYTES_AT + read(file).map_or(0, |trace| text_of(&trace).len());
    let room = room(case, needed);
    let mut mine = Lent::drawn(&mut case.chance, room);
    let mut theirs = mine.clone();
    let wanted = packs::unpack(file, mine.bytes_mut());
    let got = case.desk.unpack(lent.bytes(), theirs.bytes_mut());
    let text = case.same(Call::Unpack { room }, (wanted.into(), &mine), (got.into(), &theirs));
    let session = opened(case, lent.bytes());
    let kept = lent == Lent::of(file);
    if !kept {
        case.differences.push("the file itself was changed\n".to_string());
    }
    number && line && text && session && kept
}
