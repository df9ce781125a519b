//! Whether the library says the same as both simple programs: nothing is timed on which they differ.

use crate::case::Case;
use crate::library::{self, Lent};
use simple::judge::{judge, Judgement};
use simple::session::{Asked, Session};
use simple::{reader, verdict, Bools, Model, Record, Table, Verdict, Words};
use wheelotter::{entries, Answer, HEAD, MARK, RECORDS, TABLE};

/// The verdict on a text, told that of the program by rows.
pub fn on_verdict(text: &[u8], model: Model, by_rows: &Verdict, limit: u64) -> bool {
    let printed = library::lines(text);
    let (simple, _) = verdict::<Bools>(&records(text), model, limit);
    let good = simple == *by_rows && printed[model as usize - 1] == format!("{}: {simple}", model.name());
    good || differ(text, model, &format!("{simple}, {by_rows}, {}", printed.join("; ")))
}

/// The judgement on the case's list, its session with the pairs supposed, the same with the latest taken back, and what is asked.
pub fn on_calls(case: &Case) -> bool {
    let sessions = match &case.simple {
        Some(simple) => on_session(case, &simple.bools) && on_session(case, &simple.words),
        None => case.session.is_empty(),
    };
    (on_list::<Bools>(case) && on_list::<Words>(case) && sessions) || differ(&case.text, case.model, "judge or session")
}

fn differ(text: &[u8], model: Model, what: &str) -> bool {
    eprintln!("{}: {what}\n{}", model.name(), String::from_utf8_lossy(text));
    false
}

fn records(text: &[u8]) -> Vec<Record> {
    reader::read(text, RECORDS).expect("what is drawn is good")
}

fn on_list<T: Table>(case: &Case) -> bool {
    let mut lent = Lent::new();
    let answer = entries::judge(&case.text, case.model as u8, &case.list, &mut lent.out);
    let list: Vec<usize> = case.list.iter().map(|&x| usize::from(x)).collect();
    let (number, first, second) = match judge::<T>(&records(&case.text), case.model, &list) {
        Judgement::Valid => (Answer::Valid, 0, 0),
        Judgement::WrongLength => (Answer::WrongLength, 0, 0),
        Judgement::BadNumber(place) => (Answer::BadNumber, place, 0),
        Judgement::Repeat(x) => (Answer::Repeat, x, 0),
        Judgement::OutOfTurn(x, y) => (Answer::OutOfTurn, x, y),
        Judgement::WrongValue(x) => (Answer::WrongValue, x, 0),
    };
    answer == number as u8 && lent.out[..4] == [(first as u16).to_le_bytes(), (second as u16).to_le_bytes()].concat()
}

fn on_session<T: Table>(case: &Case, simple: &Session<T>) -> bool {
    let (x, y) = case.pair;
    let asked = match simple.ask(x, y) {
        Ok(Asked::Held) => Answer::Held as u8,
        Ok(Asked::NotHeld) => Answer::NotHeld as u8,
        Ok(Asked::Contradicted) => Answer::Contradicted as u8,
        Err(number) => number,
    };
    let (mut more, mut fewer) = (case.session.clone(), case.session.clone());
    same(&case.session, simple)
        && entries::ask(&case.session, x, y) == asked
        && entries::suppose(&mut more, x, y) == Answer::Done as u8
        && simple.suppose(x, y).is_ok_and(|simple| same(&more, &simple))
        && entries::take_back(&mut fewer) == Answer::Done as u8
        && simple.take_back().is_ok_and(|simple| same(&fewer, &simple))
}

/// Whether a session in bytes has a simple one's pairs, mark and table, and its trace.
fn same<T: Table>(bytes: &[u8], simple: &Session<T>) -> bool {
    let n = simple.held.records();
    let held = |x: usize, y: usize| bytes[TABLE + x * (RECORDS / 8) + y / 8] >> (y % 8) & 1 == 1;
    usize::from(bytes[1]) == simple.pairs.len()
        && (bytes[MARK] == 1) == simple.contradicted
        && (0..n).all(|x| (0..n).all(|y| held(x, y) == simple.held.has(x, y)))
        && bytes[HEAD..] == packed(&simple.text)
}

/// The packed file of a text without init lines: its head, and eight bytes a record.
fn packed(text: &[u8]) -> Vec<u8> {
    let records = records(text);
    let entry = |record: &Record| {
        let (kind, address, read, written) = match *record {
            Record::Load { address, read, .. } => (0, address, read, 0),
            Record::Store { address, written, .. } => (1, address, 0, written),
            Record::Swap { address, read, written, .. } => (2, address, read, written),
            Record::Fence { .. } => (3, 0, 0, 0),
        };
        let two = |value: usize| [value as u8, (value >> 8) as u8];
        [&[kind, record.thread() as u8, address as u8, 0][..], &two(read), &two(written)].concat()
    };
    let count = records.len();
    let head = [b'P', b'Y', b'R', 1, 0, 0, count as u8, (count >> 8) as u8];
    records.iter().fold(head.to_vec(), |file, record| [file, entry(record)].concat())
}
