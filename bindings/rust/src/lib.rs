//! Wheelotter for Rust: safe functions over libdesk.a, which `bindings/build DIR` makes. Say where it is: `WHEELOTTER_LIBRARY=DIR`, an absolute
//! path, when cargo is called.
//!
//! Any bytes may be handed in; docs/GUIDE.md explains the answers and the numbers. The functions here speak in Rust's types; [`entries`] has the
//! library's own, which take any memory, any model and any session that the caller lends.

pub mod entries;
mod numbers;

pub use numbers::*;

use std::fmt;

impl Answer {
    /// The answer with a number; None where the table has no such row.
    pub fn numbered(number: u8) -> Option<Answer> {
        ANSWERS.into_iter().find(|answer| *answer as u8 == number)
    }

    /// Of what the library gave back, which is in the table.
    fn of(number: u8) -> Answer {
        Answer::numbered(number).expect("the library answers by its table")
    }
}

/// Why a text is turned back: the number (1 to 8, 17 or 22 in the table), the line, counted from 1, or 0 where no line is to blame, and that line as a part of
/// the text, without its line feed.
#[derive(Clone, Copy, Debug, PartialEq, Eq)]
pub struct Refusal<'a> {
    pub answer: Answer,
    pub line: usize,
    pub part: &'a [u8],
}

impl fmt::Display for Refusal<'_> {
    fn fmt(&self, f: &mut fmt::Formatter<'_>) -> fmt::Result {
        write!(f, "refused {} line {}", self.answer as u8, self.line)
    }
}

impl std::error::Error for Refusal<'_> {}

/// What the memory did, in record numbers.
#[derive(Clone, Debug, PartialEq, Eq)]
pub enum Verdict {
    /// This record read a value that nobody wrote.
    NoSource(u16),
    /// The rules run in a circle: each operation before the next and the last before the first, by the rules in the same places.
    Circle { operations: Vec<u16>, rules: Vec<u8> },
    /// The first valid order.
    Order(Vec<u16>),
    /// Every order was ruled out.
    NoneLeft,
}

/// The whole answer to a text: one line for each model, or the line of a refusal.
pub fn report(text: &[u8]) -> String {
    let mut out = [0u8; REPORT];
    let length = entries::report(text, &mut out);
    String::from_utf8_lossy(&out[..length]).into_owned()
}

/// Whether a text writes a trace, or why it is turned back.
pub fn check(text: &[u8]) -> Result<(), Refusal<'_>> {
    match Answer::of(entries::number(text)) {
        Answer::Done => Ok(()),
        answer => Err(Refusal { answer, line: entries::line(text), part: &text[entries::start(text)..entries::end(text)] }),
    }
}

/// What the memory did under a model.
pub fn verdict(text: &[u8], model: Model) -> Result<Verdict, Refusal<'_>> {
    let mut out = [0; VERDICT];
    match told(Answer::of(entries::verdict(text, model as u8, &mut out)), &out) {
        Some(verdict) => Ok(verdict),
        None => check(text).map(|()| unreachable!("a good text has a verdict under every model")),
    }
}

/// The verdict in the bytes that came with an answer; None where the answer is none.
fn told(answer: Answer, out: &[u8]) -> Option<Verdict> {
    let number = |place: usize| u16::from_le_bytes([out[place], out[place + 1]]);
    let named = usize::from(number(0));
    let operations: Vec<u16> = (0..named).map(|i| number(OPERATIONS + 2 * i)).collect();
    match answer {
        Answer::NoSource => Some(Verdict::NoSource(operations[0])),
        Answer::Circle => Some(Verdict::Circle { operations, rules: out[RULES..][..named].to_vec() }),
        Answer::Order => Some(Verdict::Order(operations)),
        Answer::NoneLeft => Some(Verdict::NoneLeft),
        _ => None,
    }
}

/// The verdict within a limit of steps.
#[derive(Clone, Debug, PartialEq, Eq)]
pub enum Limited {
    /// The verdict, and how many steps the plain search makes; 0 for a missing source and a circle.
    Decided(Verdict, u64),
    /// The plain search makes more steps than the limit.
    Undecided,
}

/// What the memory did under a model, where the plain search makes no more steps than the limit.
pub fn limited(text: &[u8], model: Model, limit: u64) -> Result<Limited, Refusal<'_>> {
    let mut out = [0; LIMITED];
    let answer = Answer::of(entries::limited(text, model as u8, limit, &mut out));
    let steps = u64::from_le_bytes(out[COUNTED..].try_into().expect("eight bytes"));
    match (answer, told(answer, &out)) {
        (Answer::Undecided, _) => Ok(Limited::Undecided),
        (_, Some(verdict)) => Ok(Limited::Decided(verdict, steps)),
        (_, None) => check(text).map(|()| unreachable!("a good text has a verdict under every model")),
    }
}

/// Whether a list is an order, or which condition fails first.
#[derive(Clone, Copy, Debug, PartialEq, Eq)]
pub enum Judgement {
    Valid,
    /// Not as many numbers as there are operations.
    WrongLength,
    /// The first place, from 0, of a fence or a number past the end.
    BadNumber(u16),
    /// The lowest record that stands there twice.
    Repeat(u16),
    /// Of the kept pairs the wrong way round the lowest first record, and with it the lowest second.
    OutOfTurn(u16, u16),
    /// The lowest record that would read another value.
    WrongValue(u16),
}

/// Whether a list of record numbers is a valid order of the trace that a text writes.
pub fn judge<'a>(text: &'a [u8], model: Model, list: &[u16]) -> Result<Judgement, Refusal<'a>> {
    let mut out = [0; JUDGEMENT];
    let answer = Answer::of(entries::judge(text, model as u8, list, &mut out));
    let [first, second] = [[out[0], out[1]], [out[2], out[3]]].map(u16::from_le_bytes);
    match answer {
        Answer::Valid => Ok(Judgement::Valid),
        Answer::WrongLength => Ok(Judgement::WrongLength),
        Answer::BadNumber => Ok(Judgement::BadNumber(first)),
        Answer::Repeat => Ok(Judgement::Repeat(first)),
        Answer::OutOfTurn => Ok(Judgement::OutOfTurn(first, second)),
        Answer::WrongValue => Ok(Judgement::WrongValue(first)),
        _ => check(text).map(|()| unreachable!("a list is judged under every model")),
    }
}

/// How the machine ends a run.
#[derive(Clone, Copy, Debug, PartialEq, Eq)]
pub enum Ran {
    /// The place, from 0, of the first impossible step.
    Stuck(u16),
    /// All records ran, and the buffers are empty.
    Through,
    /// All steps are done, and records are left or entries wait.
    NotThrough,
}

/// Runs the trace that a text writes on a plain machine by a list of steps: one below 8 runs the next record of that core, 8 more empties the oldest
/// entry of its store buffer. Only SC and TSO have a machine.
pub fn run(text: &[u8], model: Model, steps: &[u8]) -> Result<Ran, Answer> {
    let mut out = [0; PLACE];
    match Answer::of(entries::run(text, model as u8, steps, &mut out)) {
        Answer::Stuck => Ok(Ran::Stuck(u16::from_le_bytes(out))),
        Answer::Through => Ok(Ran::Through),
        Answer::NotThrough => Ok(Ran::NotThrough),
        refused => Err(refused),
    }
}

/// The steps by which that machine runs the trace through in a valid order of its operations; [`Answer::NoOrder`] where the list is none.
pub fn steps(text: &[u8], model: Model, order: &[u16]) -> Result<Vec<u8>, Answer> {
    let mut out = [0; REPLAY];
    match Answer::of(entries::steps(text, model as u8, order, &mut out)) {
        Answer::Replayed => Ok(out[STEPS_AT..][..usize::from(u16::from_le_bytes([out[0], out[1]]))].to_vec()),
        refused => Err(refused),
    }
}

/// What comes of a trace that is to be cut down.
#[derive(Clone, Debug, PartialEq, Eq)]
pub enum Smaller {
    /// The lowest record that read what nobody wrote.
    NoSource(u16),
    /// The trace has an order.
    NothingWrong,
    /// What is left has no order, and no single removal from it leaves a trace without one: the old number of each of its records, and its text, which
    /// may lack a thread.
    Cut { olds: Vec<u16>, text: Vec<u8> },
}

/// Cuts a faulty trace down under a model: the lowest record whose removal keeps the fault goes, with all that read from it, again and again.
pub fn smaller(text: &[u8], model: Model) -> Result<Smaller, Refusal<'_>> {
    let mut out = vec![0; SMALLER];
    let answer = Answer::of(entries::smaller(text, model as u8, &mut out));
    let number = |place: usize| u16::from_le_bytes([out[place], out[place + 1]]);
    match answer {
        Answer::NoSource => Ok(Smaller::NoSource(number(0))),
        Answer::NothingWrong => Ok(Smaller::NothingWrong),
        Answer::Cut => {
            let olds = (0..usize::from(number(0))).map(|new| number(OLDS + 2 * new)).collect();
            Ok(Smaller::Cut { olds, text: out[LEFT..][..usize::from(number(2))].to_vec() })
        }
        _ => check(text).map(|()| unreachable!("a good text is answered under every model")),
    }
}

/// Whether a list of numbers is a paper that shows that the trace of a text has no valid order under a model: docs/PAPERS.md has the layout. A list that is
/// not accepted says nothing: there may be an order or not.
pub fn accepts<'a>(text: &'a [u8], model: Model, list: &[u16]) -> Result<bool, Refusal<'a>> {
    match Answer::of(entries::accepts(text, model as u8, list)) {
        Answer::Accepted => Ok(true),
        Answer::NotAccepted => Ok(false),
        _ => check(text).map(|()| unreachable!("a list is read under every model")),
    }
}

/// Why a trace has no order, in numbers.
#[derive(Clone, Debug, PartialEq, Eq)]
pub enum Paper {
    /// The trace has an order, or a source is missing.
    Nothing,
    /// The list has more numbers than there is room for.
    TooLong,
    /// The list, which [`accepts`] accepts.
    Shown(Vec<u16>),
}

/// Why the trace of a text has no valid order under a model, as a list of at most `room` numbers: docs/PAPERS.md has the layout.
pub fn paper(text: &[u8], model: Model, room: usize) -> Result<Paper, Refusal<'_>> {
    let mut out = vec![0; LIST + room];
    match Answer::of(entries::paper(text, model as u8, &mut out)) {
        Answer::NothingToShow => Ok(Paper::Nothing),
        Answer::NoRoom => Ok(Paper::TooLong),
        Answer::Shown => Ok(Paper::Shown(out[LIST..][..usize::from(out[0]) + 65536 * usize::from(out[1])].to_vec())),
        _ => check(text).map(|()| unreachable!("a good text is answered under every model")),
    }
}

/// Why a packed file is turned back: the number (4, 6, 7, 8, 18, 19, 20 or 22 in the table), and the line, which is the record's number plus 1, or 0
/// where no record is to blame.
#[derive(Clone, Copy, Debug, PartialEq, Eq)]
pub struct FileRefusal {
    pub answer: Answer,
    pub line: usize,
}

impl fmt::Display for FileRefusal {
    fn fmt(&self, f: &mut fmt::Formatter<'_>) -> fmt::Result {
        write!(f, "refused {} line {}", self.answer as u8, self.line)
    }
}

impl std::error::Error for FileRefusal {}

/// The packed file of the trace that a text writes.
pub fn pack(text: &[u8]) -> Result<Vec<u8>, Refusal<'_>> {
    let mut out = vec![0; PACKED];
    match Answer::of(entries::pack(text, &mut out)) {
        Answer::Done => Ok(counted(&out)),
        _ => check(text).map(|()| unreachable!("a good text has a file, and there is room for any")),
    }
}

/// The text of the trace that a packed file packs.
pub fn unpack(file: &[u8]) -> Result<Vec<u8>, FileRefusal> {
    let mut out = vec![0; UNPACKED];
    match Answer::of(entries::unpack(file, &mut out)) {
        Answer::Done => Ok(counted(&out)),
        answer => Err(FileRefusal { answer, line: entries::file_line(file) }),
    }
}

/// Whether a packed file packs a trace, or why it is turned back.
pub fn check_file(file: &[u8]) -> Result<(), FileRefusal> {
    match Answer::of(entries::file_number(file)) {
        Answer::Done => Ok(()),
        answer => Err(FileRefusal { answer, line: entries::file_line(file) }),
    }
}

/// The bytes behind their count.
fn counted(out: &[u8]) -> Vec<u8> {
    out[BYTES_AT..][..usize::from(u16::from_le_bytes([out[0], out[1]]))].to_vec()
}

/// Why nothing was packed, or unpacked.
#[derive(Clone, Copy, Debug, PartialEq, Eq)]
pub enum NoSignature {
    /// What is wrong with the text.
    Text(Answer),
    /// The lowest record whose read is not in its list.
    Outside(usize),
    /// The lowest word that is too large for its digits.
    TooLarge(usize),
    /// The words are not as many as the program has.
    WrongLength,
}

fn signed<T>(code: usize, list: Vec<T>) -> Result<Vec<T>, NoSignature> {
    match (code % 256, code / 256) {
        (0, _) => Ok(list),
        (23, record) => Err(NoSignature::Outside(record)),
        (24, word) => Err(NoSignature::TooLarge(word)),
        (26, _) => Err(NoSignature::WrongLength),
        (number, _) => Err(NoSignature::Text(Answer::of(number as u8))),
    }
}

/// What the loads of a text read, in words, thread by thread.
pub fn signature(text: &[u8]) -> Result<Vec<u64>, NoSignature> {
    let mut words = vec![0; entries::words(text)];
    signed(entries::signature(text, &mut words), words)
}

/// What the loads of a text's program read, by record number, where they have these words; what the text itself records as read is not looked at.
pub fn reads(text: &[u8], words: &[u64]) -> Result<Vec<u16>, NoSignature> {
    let mut reads = vec![0; entries::loads(text)];
    signed(entries::reads(text, words, &mut reads), reads)
}

/// Why no run of a night's worth was judged.
#[derive(Clone, Copy, Debug, PartialEq, Eq)]
pub enum NoNight {
    /// What is wrong with the text.
    Text(Answer),
    /// The first run with a word that is too large for its digits, and the lowest of these.
    TooLarge { run: usize, word: usize },
    /// The words are not those of so many runs.
    WrongLength,
}

/// What the memory did in each of so many runs of a text's program, told by their words, one run behind the other: [`reads`] says what each run saw.
pub fn night(text: &[u8], model: Model, words: &[u64], runs: usize) -> Result<Vec<Verdict>, NoNight> {
    let mut out = vec![0; runs * BLOCK];
    let code = entries::night(text, model as u8, words, &mut out);
    match (code % 256, code / 256 % 256, code / 65536) {
        (0, _, _) => Ok(out.chunks(BLOCK).map(block).collect()),
        (24, word, run) => Err(NoNight::TooLarge { run, word }),
        (26, _, _) => Err(NoNight::WrongLength),
        (number, _, _) => Err(NoNight::Text(Answer::of(number as u8))),
    }
}

/// The verdict in the numbers of a run.
fn block(out: &[u16]) -> Verdict {
    let named = usize::from(out[1]);
    let operations = out[BLOCK_OPERATIONS..][..named].to_vec();
    match Answer::of(out[0] as u8) {
        Answer::NoSource => Verdict::NoSource(operations[0]),
        Answer::Circle => Verdict::Circle { operations, rules: out[BLOCK_RULES..][..named].iter().map(|&rule| rule as u8).collect() },
        Answer::Order => Verdict::Order(operations),
        _ => Verdict::NoneLeft,
    }
}

/// What a session knows of two operations.
#[derive(Clone, Copy, Debug, PartialEq, Eq)]
pub enum Asked {
    Held,
    NotHeld,
    Contradicted,
}

/// What a recorder tells of one step.
#[derive(Clone, Copy, Debug, PartialEq, Eq)]
pub enum Record {
    Load { thread: u8, address: u8, read: u16 },
    Store { thread: u8, address: u8, written: u16 },
    Swap { thread: u8, address: u8, read: u16, written: u16 },
    Fence { thread: u8 },
}

/// A trace, a model and the pairs that are supposed of it, with all that is then held. Two sessions are equal exactly when their bytes are.
#[derive(Clone, Debug, PartialEq, Eq)]
pub struct Session {
    bytes: Vec<u8>,
}

impl Session {
    /// Refused where the text is turned back. A load or swap whose source is not recorded yet waits.
    pub fn open(text: &[u8], model: Model) -> Result<Session, Answer> {
        let mut bytes = vec![0; SESSION];
        done(entries::open(text, model as u8, &mut bytes))?;
        bytes.truncate(HEAD + file_length(&bytes[HEAD..]));
        Ok(Session { bytes })
    }

    /// The same on a packed file. It is turned back where it lost a core; what a session keeps may have lost one, and is taken up by its bytes.
    pub fn open_file(file: &[u8], model: Model) -> Result<Session, Answer> {
        let mut bytes = vec![0; SESSION];
        done(entries::open_file(file, model as u8, &mut bytes))?;
        bytes.truncate(HEAD + file_length(&bytes[HEAD..]));
        Ok(Session { bytes })
    }

    /// Supposes that x came before y; at most [`PAIRS`] pairs stand. Refused, the session stays as it was.
    pub fn suppose(&mut self, x: usize, y: usize) -> Result<(), Answer> {
        done(entries::suppose(&mut self.bytes, x, y))
    }

    /// Takes the latest pair back, and all that came from it.
    pub fn take_back(&mut self) -> Result<(), Answer> {
        done(entries::take_back(&mut self.bytes))
    }

    /// Asks whether x before y is held: true in every order that the memory may show, as long as the supposed pairs are.
    pub fn ask(&self, x: usize, y: usize) -> Result<Asked, Answer> {
        match Answer::of(entries::ask(&self.bytes, x, y)) {
            Answer::Held => Ok(Asked::Held),
            Answer::NotHeld => Ok(Asked::NotHeld),
            Answer::Contradicted => Ok(Asked::Contradicted),
            refused => Err(refused),
        }
    }

    /// Adds a record behind the others; the pairs stand. Refused, the session stays as it was.
    pub fn add(&mut self, record: Record) -> Result<(), Answer> {
        let (kind, thread, address, read, written) = match record {
            Record::Load { thread, address, read } => (0, thread, address, read, 0),
            Record::Store { thread, address, written } => (1, thread, address, 0, written),
            Record::Swap { thread, address, read, written } => (2, thread, address, read, written),
            Record::Fence { thread } => (3, thread, 0, 0, 0),
        };
        let length = self.bytes.len();
        self.bytes.resize(length + RECORD, 0);
        let added = done(entries::add(&mut self.bytes, kind, thread, address, read, written));
        if added.is_err() {
            self.bytes.truncate(length);
        }
        added
    }

    /// The lowest record that waits for its source.
    pub fn waiting(&self) -> Result<Option<u16>, Answer> {
        let mut out = [0; PLACE];
        match Answer::of(entries::waiting(&self.bytes, &mut out)) {
            Answer::Waits => Ok(Some(u16::from_le_bytes(out))),
            Answer::Done => Ok(None),
            refused => Err(refused),
        }
    }

    /// To keep a session, or to send it.
    pub fn as_bytes(&self) -> &[u8] {
        &self.bytes
    }
}

/// Bytes from anywhere. If they are not a session, every call is refused with [`Answer::NoSession`] and leaves them as they are.
impl From<Vec<u8>> for Session {
    fn from(bytes: Vec<u8>) -> Session {
        Session { bytes }
    }
}

/// How many bytes a packed file has, as it says itself.
fn file_length(file: &[u8]) -> usize {
    let records = u16::from_le_bytes([file[COUNT], file[COUNT + 1]]);
    ENTRIES + FIRST * usize::from(file[FIRSTS]) + RECORD * usize::from(records)
}

fn done(number: u8) -> Result<(), Answer> {
    match Answer::of(number) {
        Answer::Done => Ok(()),
        refused => Err(refused),
    }
}
