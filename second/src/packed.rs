//! The packed trace file (document 02, request 2): writer and reader, little endian.
//!
//! | Bytes | What |
//! |---|---|
//! | 3 | the mark PYR |
//! | 2 | the version, 1 |
//! | 1 | how many first values other than 0 |
//! | 2 | how many records |
//! | 3 each | a first value: address, value in two; addresses rising |
//! | 8 each | a record: kind (0 load, 1 store, 2 swap, 3 fence), thread, address, 0, value read in two, value written in two; unused ones 0 |

use crate::trace::{within_bounds, Firsts, Record, Trace, ADDRESSES, BEGINNING, LAST_ADDRESS, MOST_RECORDS};

pub const MARK: [u8; 3] = *b"PYR";
pub const VERSION: u16 = 1;

/// What stands before the first values, and how long an entry of each kind is.
pub const HEADER: usize = 8;
pub const FIRST: usize = 3;
pub const RECORD: usize = 8;

/// What is wrong with a file: the line is the record's number plus 1, and 0 for anything outside a record.
#[derive(Clone, Copy, Debug, PartialEq, Eq)]
pub struct Refusal {
    pub number: u8,
    pub line: usize,
}

// ---- the writer ----

/// The file of a trace that is well formed: its numbers fit.
pub fn file_of(trace: &Trace) -> Vec<u8> {
    let firsts: Vec<(usize, u64)> = trace.firsts.iter().copied().enumerate().filter(|&(_, value)| value != BEGINNING).collect();
    let mut file = MARK.to_vec();
    file.extend(VERSION.to_le_bytes());
    file.push(firsts.len() as u8);
    file.extend(two(trace.count as u64));
    for (address, value) in firsts {
        file.push(address as u8);
        file.extend(two(value));
    }
    trace.records().iter().for_each(|record| file.extend(entry_of(record)));
    file
}

fn two(number: u64) -> [u8; 2] {
    u16::try_from(number).expect("within its bound").to_le_bytes()
}

fn entry_of(record: &Record) -> [u8; RECORD] {
    let kind = match record {
        Record::Load { .. } => 0,
        Record::Store { .. } => 1,
        Record::Swap { .. } => 2,
        Record::Fence { .. } => 3,
    };
    let (read, written) = (two(record.read().unwrap_or(0)), two(record.written().unwrap_or(0)));
    [kind, record.thread() as u8, record.address().unwrap_or(0) as u8, 0, read[0], read[1], written[0], written[1]]
}

/// The file at the front of the lent bytes, and its length; or what is wrong, and nothing is written.
pub fn write(trace: &Trace, lent: &mut [u8]) -> Result<usize, u8> {
    if !trace.well_formed() {
        return Err(10);
    }
    if trace.skips_a_thread() {
        return Err(22);
    }
    let file = file_of(trace);
    lent.get_mut(..file.len()).ok_or(21)?.copy_from_slice(&file);
    Ok(file.len())
}

// ---- the reader ----

/// A file as it comes from the unit: where every entry is good, no core may be missing.
pub fn read(file: &[u8]) -> Result<Trace, Refusal> {
    let trace = read_entries(file)?;
    if trace.skips_a_thread() {
        return Err(outside(22));
    }
    Ok(trace)
}

/// All but number 22, which a trace by value is not held to. The tests stand in the order that the request gives.
pub fn read_entries(file: &[u8]) -> Result<Trace, Refusal> {
    if file.len() < 5 || file[..3] != MARK {
        return Err(outside(18));
    }
    if number_at(file, 3) != VERSION.into() {
        return Err(outside(19));
    }
    if file.len() < HEADER {
        return Err(outside(18));
    }
    let (firsts, records) = (usize::from(file[5]), number_at(file, 6) as usize);
    if file.len() != HEADER + FIRST * firsts + RECORD * records {
        return Err(outside(18));
    }
    if records > MOST_RECORDS {
        return Err(Refusal { number: 7, line: MOST_RECORDS + 1 });
    }
    let (firsts, records) = file[HEADER..].split_at(FIRST * firsts);
    let firsts = read_firsts(firsts).map_err(outside)?;
    let mut above = Vec::new();
    for (number, entry) in records.chunks(RECORD).enumerate() {
        let record = read_record(entry, &firsts, &above).map_err(|fault| Refusal { number: fault, line: number + 1 })?;
        above.push(record);
    }
    Ok(Trace::with(firsts, &above))
}

fn outside(number: u8) -> Refusal {
    Refusal { number, line: 0 }
}

fn number_at(bytes: &[u8], place: usize) -> u64 {
    u16::from_le_bytes([bytes[place], bytes[place + 1]]).into()
}

fn read_firsts(entries: &[u8]) -> Result<Firsts, u8> {
    let mut firsts = [BEGINNING; ADDRESSES];
    let mut before = None;
    for entry in entries.chunks(FIRST) {
        let (address, value) = (entry[0], number_at(entry, 1));
        if value == 0 || before.is_some_and(|before| address <= before) {
            return Err(20);
        }
        if u64::from(address) > LAST_ADDRESS {
            return Err(4);
        }
        firsts[usize::from(address)] = value;
        before = Some(address);
    }
    Ok(firsts)
}

fn read_record(entry: &[u8], firsts: &Firsts, above: &[Record]) -> Result<Record, u8> {
    let record = record_in(entry).ok_or(20)?;
    if !within_bounds(&record) {
        return Err(4);
    }
    let (Some(address), Some(written)) = (record.address(), record.written()) else { return Ok(record) };
    if written == firsts[address as usize] {
        return Err(6);
    }
    if above.iter().any(|other| other.address() == Some(address) && other.written() == Some(written)) {
        return Err(8);
    }
    Ok(record)
}

/// A record by the numbers of its kind and fields, as its entry has them; None where such an entry is none.
pub fn record_of(kind: u8, thread: u8, address: u8, read: u16, written: u16) -> Option<Record> {
    let (read, written) = (read.to_le_bytes(), written.to_le_bytes());
    record_in(&[kind, thread, address, 0, read[0], read[1], written[0], written[1]])
}

/// None for a kind that there is not, and where something stands in a field that the kind does not use.
fn record_in(entry: &[u8]) -> Option<Record> {
    let (thread, address) = (entry[1].into(), entry[2].into());
    let (read, written) = (number_at(entry, 4), number_at(entry, 6));
    let record = match entry[0] {
        0 => Record::Load { thread, address, read },
        1 => Record::Store { thread, address, written },
        2 => Record::Swap { thread, address, read, written },
        3 => Record::Fence { thread },
        _ => return None,
    };
    let unused = [
        (entry[3] != 0, true),
        (address != 0, record.address().is_none()),
        (read != 0, record.read().is_none()),
        (written != 0, record.written().is_none()),
    ];
    (!unused.contains(&(true, true))).then_some(record)
}
