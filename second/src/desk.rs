//! The entries of the library: what each answers, and what it lays into the memory that it is lent, byte for byte.
//!
//! | Answer | Meaning |
//! |---|---|
//! | 0 | done, or nothing is wrong |
//! | 1 to 17, 20, 22 | the document's numbers |
//! | 21 | no room in the lent memory, which stays as it was; whatever is wrong with the input is told before it |
//! | 64, 65, 66 | the verdict: order, circle, none left |
//! | 67, 68, 69 | asked: held, not held, contradicted |
//! | 70 to 75 | a list judged: valid, wrong length, bad number, repeat, out of turn, wrong value |
//! | 76 | undecided: the plain search makes more steps than the limit |
//! | 77, 78 | to be cut down: nothing is wrong, or what is left |
//! | 25 | the machine: an impossible step, with its place |
//! | 79, 80 | all steps are done: the trace ran through, or not |
//! | 81, 82 | steps that run an order through; a list that is no order |
//! | 90, 91 | a paper: accepted, or not |
//! | 92 | a session: a load or swap waits for its source |
//! | 93, 94 | a paper to be written: nothing to show, or shown |
//!
//! Numbers of records, and how many are told, are laid down in two bytes, a count of steps in eight, the low one first.
//!
//! A session in bytes: the model; how many pairs stand, in one byte; sixteen pairs, first then second, unused ones 0; 1 where contradicted; a
//! bit for each x and each y, eight to a byte from the lowest on, 1 where x before y is held; then the packed file of its trace up to the end.
//! A record that is added takes eight bytes more.

use crate::limited::{limited, Limited};
use crate::orders::{self, First, Judgement};
use crate::packed::{file_of, read_entries, record_of, RECORD};
use crate::papers;
use crate::plain::{self, has_machine, Ran};
use crate::reader::{self, Refusal};
use crate::report;
use crate::rules::Pair;
use crate::session::{self, Answer, Session, Talk, MOST_PAIRS};
use crate::smaller::{smaller, Smaller};
use crate::trace::{text_of, Model, Record, Trace, MODELS, MOST_RECORDS};
use crate::verdict::{judgement, verdict, Verdict};
use std::cell::OnceCell;

pub const DONE: u8 = 0;
pub const NO_MODEL: u8 = 9;
pub const NO_SOURCE: u8 = 11;
pub const NO_SESSION: u8 = 12;
pub const NO_ENTRY: u8 = 20;
pub const NO_ROOM: u8 = 21;
pub const ORDER: u8 = 64;
pub const CIRCLE: u8 = 65;
pub const NONE_LEFT: u8 = 66;
pub const HELD: u8 = 67;
pub const NOT_HELD: u8 = 68;
pub const CONTRADICTED: u8 = 69;
pub const VALID: u8 = 70;
pub const WRONG_LENGTH: u8 = 71;
pub const BAD_NUMBER: u8 = 72;
pub const REPEAT: u8 = 73;
pub const OUT_OF_TURN: u8 = 74;
pub const WRONG_VALUE: u8 = 75;
pub const UNDECIDED: u8 = 76;
pub const NOTHING_TO_SHOW: u8 = 93;
pub const SHOWN: u8 = 94;

/// Where the list begins in a paper, behind its length.
pub const LIST_AT: usize = 2;

pub const STUCK: u8 = 25;
pub const THROUGH: u8 = 79;
pub const NOT_THROUGH: u8 = 80;
pub const REPLAYED: u8 = 81;
pub const NO_ORDER: u8 = 82;
pub const WAITS: u8 = 92;
pub const NOTHING_WRONG: u8 = 77;
pub const CUT: u8 = 78;
pub const ACCEPTED: u8 = 90;
pub const NOT_ACCEPTED: u8 = 91;

/// A verdict in bytes: how many operations it names, the operations, the rules of a circle.
pub const VERDICT: usize = RULES_AT + MOST_RECORDS;
pub const OPERATIONS_AT: usize = 2;
pub const RULES_AT: usize = OPERATIONS_AT + 2 * MOST_RECORDS;

/// A limited verdict in bytes: a verdict, and behind it the count of steps.
pub const LIMITED: usize = VERDICT + 8;

/// What a judged list comes with: the place or the record, of a pair both records; unused ones 0.
pub const JUDGEMENT: usize = 4;

/// The place of an impossible step.
pub const PLACE: usize = 2;

/// Steps from an order: how many, and a byte each; unused ones 0. A record runs, and a store is emptied, once.
pub const REPLAY: usize = STEPS_AT + 2 * MOST_RECORDS;
pub const STEPS_AT: usize = 2;

/// What is left of a trace: how many records, how many bytes their text has, their old numbers, unused ones 0; then the text. Beside a missing source
/// the record that lacks it stands first.
pub const LEFT: usize = OLDS_AT + 2 * MOST_RECORDS;
pub const OLDS_AT: usize = 4;

pub const PAIRS_AT: usize = 2;
pub const CONTRADICTED_AT: usize = PAIRS_AT + 4 * MOST_PAIRS;
pub const TABLE_AT: usize = CONTRADICTED_AT + 1;

/// What stands in a session before the file of its trace.
pub const HEAD: usize = TABLE_AT + MOST_RECORDS * MOST_RECORDS / 8;

/// The byte and the bit of it where the table says whether a pair is held.
pub fn place_of((x, y): Pair) -> (usize, u8) {
    let bit = MOST_RECORDS * x + y;
    (TABLE_AT + bit / 8, 1 << (bit % 8))
}

pub fn put_number(place: &mut [u8], number: usize) {
    let number = u16::try_from(number).expect("record numbers fit into two bytes");
    place[..2].copy_from_slice(&number.to_le_bytes());
}

/// A paper at the front of lent numbers: its length, the low half first, then its list.
pub fn lay_paper(list: &[u16], lent: &mut [u16]) -> u8 {
    let Some(place) = lent.get_mut(..LIST_AT + list.len()) else { return NO_ROOM };
    (place[0], place[1]) = (list.len() as u16, (list.len() >> 16) as u16);
    place[LIST_AT..].copy_from_slice(list);
    SHOWN
}

pub fn number_at(place: &[u8]) -> usize {
    u16::from_le_bytes([place[0], place[1]]).into()
}

// ---- a text ----

/// A text, and what was found out about it: nothing is worked out twice, however many entries are asked.
pub struct Page<'a> {
    most_steps: u64,
    reading: Result<Trace, Refusal<'a>>,
    verdicts: [OnceCell<Verdict>; MODELS],
    plain: [OnceCell<Option<(First, u64)>>; MODELS],
}

impl<'a> Page<'a> {
    pub fn new(text: &'a [u8], most_steps: u64) -> Page<'a> {
        let verdicts = [const { OnceCell::new() }; MODELS];
        let plain = [const { OnceCell::new() }; MODELS];
        Page { most_steps, reading: reader::read(text), verdicts, plain }
    }

    pub fn trace(&self) -> Option<&Trace> {
        self.reading.as_ref().ok()
    }

    pub fn most_steps(&self) -> u64 {
        self.most_steps
    }

    /// Of a good text, under a model that there is.
    pub fn verdict_under(&self, model: Model) -> Option<&Verdict> {
        let trace = self.trace()?;
        let found = || verdict(trace, model.number(), self.most_steps).expect("a good trace");
        Some(self.verdicts[model as usize].get_or_init(found))
    }

    /// What the plain search comes to under a model that there is, and its steps; None where these are too many for this program.
    pub fn plain_under(&self, model: Model) -> Option<&(First, u64)> {
        let trace = self.trace()?;
        self.plain[model as usize].get_or_init(|| orders::plain_steps(trace, model, self.most_steps)).as_ref()
    }

    /// The verdict within a limit; None where this program does not know.
    pub fn limited_under(&self, model: Model, limit: u64) -> Option<Limited> {
        let early = self.verdict_under(model).filter(|verdict| matches!(verdict, Verdict::NoSource(_) | Verdict::Circle(_)));
        let plain = if early.is_some() { None } else { self.plain_under(model).cloned() };
        limited(early, &plain, self.most_steps, limit)
    }

    /// What the program at the bench prints for this text.
    pub fn output(&self) -> String {
        match &self.reading {
            Err(refusal) => report::refused(refusal),
            Ok(_) => Model::all().iter().map(|&model| report::line(model, self.verdict_under(model).expect("a good text"))).collect(),
        }
    }

    pub fn report(&self, lent: &mut [u8]) -> usize {
        let output = self.output().into_bytes();
        match lent.get_mut(..output.len()) {
            Some(front) => {
                front.copy_from_slice(&output);
                output.len()
            }
            None => 0,
        }
    }

    pub fn number(&self) -> u8 {
        self.reading.as_ref().map_or_else(|refusal| refusal.number, |_| DONE)
    }

    pub fn line(&self) -> usize {
        self.reading.as_ref().map_or_else(|refusal| refusal.line, |_| 0)
    }

    pub fn start(&self) -> usize {
        self.reading.as_ref().map_or_else(|refusal| refusal.start, |_| 0)
    }

    pub fn end(&self) -> usize {
        self.reading.as_ref().map_or_else(|refusal| refusal.start + refusal.part.len(), |_| 0)
    }

    /// The model, of a good text and with room enough; or what is answered then.
    fn asked(&self, model: u8, lent: &[u8], room: usize) -> Result<Model, u8> {
        match (self.number(), Model::numbered(model.into())) {
            (DONE, None) => Err(NO_MODEL),
            (DONE, Some(_)) if lent.len() < room => Err(NO_ROOM),
            (DONE, Some(model)) => Ok(model),
            (refused, _) => Err(refused),
        }
    }

    /// None, and nothing laid down, where this package does not know.
    pub fn verdict(&self, model: u8, lent: &mut [u8]) -> Option<u8> {
        match self.asked(model, lent, VERDICT) {
            Err(answer) => Some(answer),
            Ok(model) => lay_answer(self.verdict_under(model).expect("a good text"), lent),
        }
    }

    /// The same within a limit of steps, with the count behind it.
    pub fn limited(&self, model: u8, limit: u64, lent: &mut [u8]) -> Option<u8> {
        let model = match self.asked(model, lent, LIMITED) {
            Err(answer) => return Some(answer),
            Ok(model) => model,
        };
        let (answer, steps) = match self.limited_under(model, limit)? {
            Limited::Decided(verdict, steps) => (lay_answer(&verdict, lent)?, steps),
            Limited::Undecided(steps) => {
                lay_verdict(&mut lent[..VERDICT], &[], &[]);
                (UNDECIDED, steps)
            }
        };
        lent[VERDICT..LIMITED].copy_from_slice(&steps.to_le_bytes());
        Some(answer)
    }

    /// None, and nothing laid down, where this package does not know.
    pub fn smaller(&self, model: u8, lent: &mut [u8]) -> Option<u8> {
        let (trace, model) = match (&self.reading, Model::numbered(model.into())) {
            (Err(refusal), _) => return Some(refusal.number),
            (Ok(_), None) => return Some(NO_MODEL),
            (Ok(trace), Some(model)) => (trace, model),
        };
        let (answer, front, olds, text) = match smaller(trace, model, self.most_steps) {
            Smaller::NoSource(load) => (NO_SOURCE, load, vec![], vec![]),
            Smaller::NothingWrong => (NOTHING_WRONG, 0, vec![], vec![]),
            Smaller::Cut(part) => (CUT, part.records.len(), part.olds(), text_of(&part.trace())),
            Smaller::NotKnown => return None,
        };
        Some(if lay_left(lent, front, &olds, &text) { answer } else { NO_ROOM })
    }

    pub fn judge(&self, model: u8, list: &[u16]) -> bool {
        let list: Vec<usize> = list.iter().copied().map(usize::from).collect();
        match (self.trace(), Model::numbered(model.into())) {
            (Some(trace), Some(model)) => orders::judge(trace, model, &list),
            _ => false,
        }
    }

    /// Why a list is no order, with the place or the records concerned.
    pub fn judgement(&self, model: u8, list: &[u16], lent: &mut [u8]) -> u8 {
        let list: Vec<usize> = list.iter().copied().map(usize::from).collect();
        let judged = match &self.reading {
            Err(refusal) => Err(refusal.number),
            Ok(trace) => judgement(trace, model.into(), &list),
        };
        let (answer, first, second) = match judged {
            Err(number) => return number,
            Ok(Judgement::Valid) => (VALID, 0, 0),
            Ok(Judgement::WrongLength) => (WRONG_LENGTH, 0, 0),
            Ok(Judgement::BadNumber(place)) => (BAD_NUMBER, place, 0),
            Ok(Judgement::Repeat(record)) => (REPEAT, record, 0),
            Ok(Judgement::OutOfTurn(first, second)) => (OUT_OF_TURN, first, second),
            Ok(Judgement::WrongValue(record)) => (WRONG_VALUE, record, 0),
        };
        let Some(place) = lent.get_mut(..JUDGEMENT) else { return NO_ROOM };
        put_number(place, first);
        put_number(&mut place[2..], second);
        answer
    }

    /// Whether a list is a paper that is accepted.
    pub fn accepts(&self, model: u8, list: &[u16]) -> u8 {
        match (&self.reading, Model::numbered(model.into())) {
            (Err(refusal), _) => refusal.number,
            (Ok(_), None) => NO_MODEL,
            (Ok(trace), Some(model)) if papers::accepted(trace, model, list) => ACCEPTED,
            (Ok(_), Some(_)) => NOT_ACCEPTED,
        }
    }

    /// What is answered to who asks for a paper, given room; None where the verdict is not known.
    pub fn paper_answer(&self, model: u8) -> Option<u8> {
        let model = match (&self.reading, Model::numbered(model.into())) {
            (Err(refusal), _) => return Some(refusal.number),
            (Ok(_), None) => return Some(NO_MODEL),
            (Ok(_), Some(model)) => model,
        };
        match self.verdict_under(model)? {
            Verdict::NotKnown => None,
            Verdict::NoSource(_) | Verdict::Order(_) => Some(NOTHING_TO_SHOW),
            Verdict::Circle(_) | Verdict::NoneLeft => Some(SHOWN),
        }
    }

    /// A paper of this package's own, which is not the library's: its length in two numbers, the low one first, then the list. None where the verdict is not known, or where
    /// no paper is found soon.
    pub fn paper(&self, model: u8, lent: &mut [u16]) -> Option<u8> {
        match (self.paper_answer(model)?, self.trace(), Model::numbered(model.into())) {
            (SHOWN, Some(trace), Some(model)) => Some(lay_paper(&papers::written(trace, model)?, lent)),
            (answer, _, _) => Some(answer),
        }
    }

    /// The trace and the model, where the text is good and the model has a machine.
    fn machine(&self, model: u8) -> Result<(&Trace, Model), u8> {
        let trace = self.reading.as_ref().map_err(|refusal| refusal.number)?;
        Model::numbered(model.into()).filter(|&model| has_machine(model)).map(|model| (trace, model)).ok_or(NO_MODEL)
    }

    /// How steps run the trace, with the place of the first impossible one.
    pub fn run(&self, model: u8, steps: &[u8], lent: &mut [u8]) -> u8 {
        let (trace, model) = match self.machine(model) {
            Err(number) => return number,
            Ok(found) => found,
        };
        let Some(place) = lent.get_mut(..PLACE) else { return NO_ROOM };
        let (answer, stuck) = match plain::run(trace, model, steps) {
            Ran::Stuck(at) => (STUCK, at),
            Ran::Done(true) => (THROUGH, 0),
            Ran::Done(false) => (NOT_THROUGH, 0),
        };
        put_number(place, stuck);
        answer
    }

    /// The steps of an order.
    pub fn steps(&self, model: u8, order: &[u16], lent: &mut [u8]) -> u8 {
        let (trace, model) = match self.machine(model) {
            Err(number) => return number,
            Ok(found) => found,
        };
        let Some(place) = lent.get_mut(..REPLAY) else { return NO_ROOM };
        let order: Vec<usize> = order.iter().copied().map(usize::from).collect();
        let found = plain::steps_of(trace, model, &order);
        let steps = found.as_deref().unwrap_or_default();
        place.fill(0);
        put_number(place, steps.len());
        place[STEPS_AT..][..steps.len()].copy_from_slice(steps);
        if found.is_some() {
            REPLAYED
        } else {
            NO_ORDER
        }
    }

    /// The answer, and the session that then stands in front of the lent memory, if any does.
    pub fn open(&self, model: u8, lent: &mut [u8]) -> (u8, Option<Talk>) {
        open_on(self.reading.as_ref().map_err(|refusal| refusal.number), model, lent)
    }
}

/// The same on what was read of a text or a packed file: its trace, or the number under which it is turned back.
pub fn open_on(reading: Result<&Trace, u8>, model: u8, lent: &mut [u8]) -> (u8, Option<Talk>) {
    let opened = reading.and_then(|trace| Talk::open(trace, model.into()).map_err(|refused| refused.number));
    let (answer, talk) = match opened {
        Ok(talk) => (DONE, talk),
        Err(number) => (number, Talk::of_nothing()),
    };
    let file = file_of(&talk.session().trace);
    let Some(place) = lent.get_mut(..HEAD + file.len()) else {
        return (if answer == DONE { NO_ROOM } else { answer }, None);
    };
    place[..HEAD].copy_from_slice(&head_of(talk.session()));
    place[HEAD..].copy_from_slice(&file);
    (answer, Some(talk))
}

/// A verdict's answer, with its bytes laid down; None where this package does not know it.
fn lay_answer(verdict: &Verdict, lent: &mut [u8]) -> Option<u8> {
    let (answer, operations, rules) = match verdict {
        Verdict::NoSource(load) => (NO_SOURCE, vec![*load], &[][..]),
        Verdict::Circle(circle) => (CIRCLE, circle.operations.clone(), &circle.rules[..]),
        Verdict::Order(list) => (ORDER, list.clone(), &[][..]),
        Verdict::NoneLeft => (NONE_LEFT, vec![], &[][..]),
        Verdict::NotKnown => return None,
    };
    lay_verdict(&mut lent[..VERDICT], &operations, rules);
    Some(answer)
}

/// All of a verdict's bytes.
pub fn lay_verdict(place: &mut [u8], operations: &[usize], rules: &[u8]) {
    place.fill(0);
    put_number(place, operations.len());
    for (operation, &x) in place[OPERATIONS_AT..RULES_AT].chunks_mut(2).zip(operations) {
        put_number(operation, x);
    }
    place[RULES_AT..][..rules.len()].copy_from_slice(rules);
}

/// What is left of a trace, where there is room for it.
pub fn lay_left(lent: &mut [u8], front: usize, olds: &[usize], text: &[u8]) -> bool {
    let Some(place) = lent.get_mut(..LEFT + text.len()) else { return false };
    place[..LEFT].fill(0);
    put_number(place, front);
    put_number(&mut place[2..], text.len());
    for (number, &old) in place[OLDS_AT..LEFT].chunks_mut(2).zip(olds) {
        put_number(number, old);
    }
    place[LEFT..].copy_from_slice(text);
    true
}

// ---- sessions ----

/// All of a session but the file of its trace.
pub fn head_of(session: &Session) -> [u8; HEAD] {
    let mut head = [0; HEAD];
    head[0] = session.model as u8;
    head[1] = session.pairs.len() as u8;
    for (pair, place) in session.pairs.iter().zip(head[PAIRS_AT..CONTRADICTED_AT].chunks_mut(4)) {
        put_number(place, pair.0);
        put_number(&mut place[2..], pair.1);
    }
    head[CONTRADICTED_AT] = u8::from(session.contradicted);
    for &pair in &session.held {
        let (byte, bit) = place_of(pair);
        head[byte] |= bit;
    }
    head
}

/// The session that some bytes are, sound or not; None where they are no session's. What it keeps is its trace by value, which may skip a thread.
pub fn taken(bytes: &[u8]) -> Option<Session> {
    let (head, file) = bytes.split_at_checked(HEAD)?;
    let contradicted = match head[CONTRADICTED_AT] {
        0 => false,
        1 => true,
        _ => return None,
    };
    let places: Vec<Pair> = head[PAIRS_AT..CONTRADICTED_AT].chunks(4).map(|pair| (number_at(pair), number_at(&pair[2..]))).collect();
    let (pairs, unused) = places.split_at_checked(head[1].into())?;
    if unused.iter().any(|pair| *pair != (0, 0)) {
        return None;
    }
    let trace = read_entries(file).ok()?;
    let bits = head[TABLE_AT..].iter().enumerate().filter(|(_, byte)| **byte != 0);
    let bits = bits.flat_map(|(place, byte)| (0..8).filter(move |bit| byte >> bit & 1 == 1).map(move |bit| 8 * place + bit));
    let held = bits.map(|bit| (bit / MOST_RECORDS, bit % MOST_RECORDS)).collect();
    Some(Session { trace, model: head[0].into(), pairs: pairs.to_vec(), contradicted, held })
}

pub fn suppose(lent: &mut [u8], x: usize, y: usize) -> u8 {
    changed(lent, |session| session::suppose(session, x, y))
}

pub fn take_back(lent: &mut [u8]) -> u8 {
    changed(lent, session::take_back)
}

/// A session as given is left as it lies.
fn changed(lent: &mut [u8], change: impl Fn(&Session) -> Result<Session, (u8, Session)>) -> u8 {
    let Some(session) = taken(lent) else { return NO_SESSION };
    match change(&session) {
        Ok(next) => {
            lent[..HEAD].copy_from_slice(&head_of(&next));
            DONE
        }
        Err((number, _)) => number,
    }
}

pub fn ask(lent: &[u8], x: usize, y: usize) -> u8 {
    let Some(session) = taken(lent) else { return NO_SESSION };
    session::ask(&session, x, y).map_or_else(|(number, _)| number, told)
}

pub fn told(answer: Answer) -> u8 {
    match answer {
        Answer::Held => HELD,
        Answer::NotHeld => NOT_HELD,
        Answer::Contradicted => CONTRADICTED,
    }
}

/// The fields of a record as they are given: kind, thread and address, value read, value written.
#[derive(Clone, Copy, Debug, PartialEq, Eq)]
pub struct Fields {
    pub kind: u8,
    pub thread: u8,
    pub address: u8,
    pub read: u16,
    pub written: u16,
}

impl Fields {
    pub fn record(&self) -> Option<Record> {
        record_of(self.kind, self.thread, self.address, self.read, self.written)
    }
}

/// All of a session.
pub fn bytes_of(session: &Session) -> Vec<u8> {
    [&head_of(session)[..], &file_of(&session.trace)].concat()
}

/// The session stands before the last eight bytes, which the record takes.
pub fn add(lent: &mut [u8], fields: &Fields) -> u8 {
    let Some(front) = lent.len().checked_sub(RECORD) else { return NO_SESSION };
    let Some(session) = taken(&lent[..front]).filter(|session| session::waiting(session).is_ok()) else { return NO_SESSION };
    let Some(record) = fields.record() else { return NO_ENTRY };
    match session::add(&session, record) {
        Ok(next) => {
            lent.copy_from_slice(&bytes_of(&next));
            DONE
        }
        Err((number, _)) => number,
    }
}

pub fn waiting(session: &[u8], lent: &mut [u8]) -> u8 {
    match taken(session).map(|session| session::waiting(&session)) {
        Some(Ok(waits)) => lay_waiting(waits, lent),
        _ => NO_SESSION,
    }
}

pub fn lay_waiting(waits: Option<usize>, lent: &mut [u8]) -> u8 {
    let Some(place) = lent.get_mut(..PLACE) else { return NO_ROOM };
    put_number(place, waits.unwrap_or(0));
    if waits.is_some() {
        WAITS
    } else {
        DONE
    }
}
