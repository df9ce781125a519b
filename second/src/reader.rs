//! Text to trace, or the number of what is wrong, its line and its part (numbers 1 to 8, 17 and 22).

use crate::trace::{within_bounds, Firsts, Record, Trace, ADDRESSES, BEGINNING, LAST_ADDRESS, LAST_VALUE, MOST_RECORDS};

pub use crate::bounds::{MOST_LINE, MOST_TEXT};

/// The part is borrowed from the caller's text, never a copy of it. It begins at `start`, which is 0 where no line is to blame.
#[derive(Clone, Copy, Debug, PartialEq, Eq)]
pub struct Refusal<'a> {
    pub number: u8,
    pub line: usize,
    pub start: usize,
    pub part: &'a [u8],
}

/// What no line is to blame for.
fn of_the_whole<'a>(number: u8) -> Refusal<'a> {
    Refusal { number, line: 0, start: 0, part: &[] }
}

/// A text as it comes from the bench: where every line is good, no core may be missing.
pub fn read(text: &[u8]) -> Result<Trace, Refusal<'_>> {
    let trace = read_lines(text)?;
    if trace.skips_a_thread() {
        return Err(of_the_whole(22));
    }
    Ok(trace)
}

/// The lines alone, for traces that are not held to 22: those handed in by value.
pub fn read_lines(text: &[u8]) -> Result<Trace, Refusal<'_>> {
    if text.len() > MOST_TEXT {
        return Err(of_the_whole(1));
    }
    let mut above = Above::default();
    for (count, line) in lines(text).into_iter().enumerate() {
        if let Err(number) = read_line(&line, &mut above) {
            return Err(Refusal { number, line: count + 1, start: line.start, part: line.part });
        }
    }
    Ok(Trace::with(above.firsts(), &above.records))
}

/// What the lines above said.
#[derive(Default)]
struct Above {
    /// The first values of the addresses that have an init line, which may be of 0.
    given: [Option<u64>; ADDRESSES],
    records: Vec<Record>,
}

impl Above {
    fn firsts(&self) -> Firsts {
        self.given.map(|value| value.unwrap_or(BEGINNING))
    }

    fn wrote(&self, record: &Record) -> bool {
        let same = |other: &Record| other.written() == record.written() && other.address() == record.address();
        record.written().is_some() && self.records.iter().any(same)
    }
}

struct Line<'a> {
    start: usize,
    part: &'a [u8],
    has_feed: bool,
}

/// Every feed ends a line; bytes after the last feed are one more line, that has none. No bytes there: no line.
fn lines(text: &[u8]) -> Vec<Line<'_>> {
    let mut above = 0;
    text.split_inclusive(|&byte| byte == b'\n')
        .map(|piece| {
            let start = above;
            above += piece.len();
            match piece.strip_suffix(b"\n") {
                Some(part) => Line { start, part, has_feed: true },
                None => Line { start, part: piece, has_feed: false },
            }
        })
        .collect()
}

/// A line of one of the forms.
enum Form {
    Init {
        address: u64,
        value: u64,
    },
    /// With a swap's second address beside it.
    Record(Record, Option<u64>),
}

/// The tests stand in the order of their numbers, so the first that fails is the lowest that applies.
fn read_line(line: &Line<'_>, above: &mut Above) -> Result<(), u8> {
    if line.part.len() > MOST_LINE {
        return Err(2);
    }
    if !line.has_feed {
        return Err(3);
    }
    match form(line.part).ok_or(3)? {
        Form::Init { address, value } => read_init(address, value, above),
        Form::Record(record, second_address) => read_record(record, second_address, above),
    }
}

/// An init line is no record: of the numbers past the form only 4 and 17 speak of it.
fn read_init(address: u64, value: u64, above: &mut Above) -> Result<(), u8> {
    if address > LAST_ADDRESS || value > LAST_VALUE {
        return Err(4);
    }
    let place = &mut above.given[address as usize];
    if !above.records.is_empty() || place.is_some() {
        return Err(17);
    }
    *place = Some(value);
    Ok(())
}

fn read_record(record: Record, second_address: Option<u64>, above: &mut Above) -> Result<(), u8> {
    // The second address of a swap is a number with a bound of its own: 4 asks for both, before 5 compares them.
    if !within_bounds(&record) || second_address.is_some_and(|address| address > LAST_ADDRESS) {
        return Err(4);
    }
    if second_address.is_some() && second_address != record.address() {
        return Err(5);
    }
    let first = record.address().map(|address| above.firsts()[address as usize]);
    if record.written().is_some() && record.written() == first {
        return Err(6);
    }
    if above.records.len() == MOST_RECORDS {
        return Err(7);
    }
    if above.wrote(&record) {
        return Err(8);
    }
    above.records.push(record);
    Ok(())
}

fn form(line: &[u8]) -> Option<Form> {
    match after(line, b"init: ") {
        Some(rest) => init(rest),
        None => record(line).map(|(record, second_address)| Form::Record(record, second_address)),
    }
}

fn init(rest: &[u8]) -> Option<Form> {
    let (address, rest) = place(rest)?;
    let value = whole_number(after(rest, b" := ")?)?;
    Some(Form::Init { address, value })
}

/// A line of one of the four forms of a record, with a swap's second address beside it.
fn record(line: &[u8]) -> Option<(Record, Option<u64>)> {
    let (thread, rest) = number(line)?;
    let rest = after(rest, b": ")?;
    if rest == b"sync" {
        return Some((Record::Fence { thread }, None));
    }
    if let Some(inside) = after(rest, b"{ ") {
        return swap(thread, inside);
    }
    let (address, rest) = place(rest)?;
    if let Some(rest) = after(rest, b" := ") {
        let written = whole_number(rest)?;
        return Some((Record::Store { thread, address, written }, None));
    }
    let read = whole_number(after(rest, b" == ")?)?;
    Some((Record::Load { thread, address, read }, None))
}

fn swap(thread: u64, inside: &[u8]) -> Option<(Record, Option<u64>)> {
    let (address, rest) = place(inside)?;
    let (read, rest) = number(after(rest, b" == ")?)?;
    let (second_address, rest) = place(after(rest, b"; ")?)?;
    let (written, rest) = number(after(rest, b" := ")?)?;
    if rest != b" }" {
        return None;
    }
    Some((Record::Swap { thread, address, read, written }, Some(second_address)))
}

fn place(bytes: &[u8]) -> Option<(u64, &[u8])> {
    let (address, rest) = number(after(bytes, b"M[")?)?;
    Some((address, after(rest, b"]")?))
}

fn after<'a>(bytes: &'a [u8], word: &[u8]) -> Option<&'a [u8]> {
    bytes.strip_prefix(word)
}

/// All the digits that stand in front, as a number. A numeral that begins with 0 is the one byte 0. However long it is, it is a number:
/// past what fits it stays at the highest, which is past every bound as well.
fn number(bytes: &[u8]) -> Option<(u64, &[u8])> {
    let length = bytes.iter().take_while(|byte| byte.is_ascii_digit()).count();
    let (digits, rest) = bytes.split_at(length);
    if digits.is_empty() || (digits[0] == b'0' && length > 1) {
        return None;
    }
    let value = digits.iter().fold(0u64, |sum, digit| sum.saturating_mul(10).saturating_add(u64::from(digit - b'0')));
    Some((value, rest))
}

fn whole_number(bytes: &[u8]) -> Option<u64> {
    number(bytes).filter(|(_, rest)| rest.is_empty()).map(|(value, _)| value)
}
