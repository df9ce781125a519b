//! Text to records, or the number and the line that it is turned back for.

use std::collections::HashSet;

#[derive(Clone, Copy, Debug, PartialEq, Eq)]
pub enum Record {
    Load { thread: usize, address: usize, read: usize },
    Store { thread: usize, address: usize, written: usize },
    Swap { thread: usize, address: usize, read: usize, written: usize },
    Fence { thread: usize },
}

impl Record {
    pub fn thread(&self) -> usize {
        match *self {
            Record::Load { thread, .. } | Record::Store { thread, .. } | Record::Swap { thread, .. } | Record::Fence { thread } => thread,
        }
    }

    pub fn address(&self) -> Option<usize> {
        match *self {
            Record::Load { address, .. } | Record::Store { address, .. } | Record::Swap { address, .. } => Some(address),
            Record::Fence { .. } => None,
        }
    }

    pub fn read(&self) -> Option<usize> {
        match *self {
            Record::Load { read, .. } | Record::Swap { read, .. } => Some(read),
            _ => None,
        }
    }

    pub fn written(&self) -> Option<usize> {
        match *self {
            Record::Store { written, .. } | Record::Swap { written, .. } => Some(written),
            _ => None,
        }
    }

    pub fn is_fence(&self) -> bool {
        matches!(self, Record::Fence { .. })
    }
}

#[derive(Clone, Copy, Debug, PartialEq, Eq)]
pub struct Refusal {
    pub number: u8,
    pub line: usize,
}

/// At most so many records, and 128 bytes of text for each.
pub fn read(text: &[u8], most: usize) -> Result<Vec<Record>, Refusal> {
    if text.len() > 128 * most {
        return Err(Refusal { number: 1, line: 0 });
    }
    let mut records = Vec::new();
    let mut seen = HashSet::new();
    for (i, line) in text.split_inclusive(|&byte| byte == b'\n').enumerate() {
        let refused = |number| Refusal { number, line: i + 1 };
        let (line, ended) = line.strip_suffix(b"\n").map_or((line, false), |line| (line, true));
        if line.len() > 80 {
            return Err(refused(2));
        }
        let form = std::str::from_utf8(line).ok().filter(|_| ended).and_then(form);
        let (record, second) = form.ok_or(refused(3))?;
        let wrong = wrong(&record, second, records.len() == most, &mut seen);
        if wrong != 0 {
            return Err(refused(wrong));
        }
        records.push(record);
    }
    Ok(records)
}

/// What is wrong with a record of a form, and the second address that its line names: 4 to 8, or 0.
fn wrong(record: &Record, second: Option<usize>, full: bool, seen: &mut HashSet<(Option<usize>, usize)>) -> u8 {
    let past = |number: Option<usize>, last: usize| number.is_some_and(|number| number > last);
    let (address, written) = (record.address(), record.written());
    if record.thread() > 7 || past(address, 15) || past(second, 15) || past(record.read(), 65_535) || past(written, 65_535) {
        4
    } else if second.is_some() && second != address {
        5
    } else if written == Some(0) {
        6
    } else if full {
        7
    } else if written.is_some_and(|value| !seen.insert((address, value))) {
        8
    } else {
        0
    }
}

/// One of the four forms; a swap comes with its second address.
fn form(line: &str) -> Option<(Record, Option<usize>)> {
    let (thread, rest) = line.split_once(": ")?;
    let thread = number(thread)?;
    if rest == "sync" {
        return Some((Record::Fence { thread }, None));
    }
    if let Some(inner) = rest.strip_prefix("{ ") {
        let (load, store) = inner.strip_suffix(" }")?.split_once("; ")?;
        let (address, read) = place(load, " == ")?;
        let (second, written) = place(store, " := ")?;
        return Some((Record::Swap { thread, address, read, written }, Some(second)));
    }
    let load = place(rest, " == ").map(|(address, read)| Record::Load { thread, address, read });
    let store = || place(rest, " := ").map(|(address, written)| Record::Store { thread, address, written });
    load.or_else(store).map(|record| (record, None))
}

/// An address and a value.
fn place(text: &str, between: &str) -> Option<(usize, usize)> {
    let (address, value) = text.strip_prefix("M[")?.split_once(']')?;
    Some((number(address)?, number(value.strip_prefix(between)?)?))
}

/// Decimal; only 0 begins with 0. One that is too long to hold is past every bound.
fn number(text: &str) -> Option<usize> {
    let good = !text.is_empty() && text.bytes().all(|byte| byte.is_ascii_digit()) && (text == "0" || !text.starts_with('0'));
    good.then(|| text.parse().unwrap_or(usize::MAX))
}
