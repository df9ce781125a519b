//! Packed files to compare on: those of traces, such as are nearly so, and bytes that are nothing of the kind.

use crate::chance::Chance;
use crate::packed::{file_of, FIRST, HEADER, MARK, RECORD};
use crate::trace::{Trace, MOST_RECORDS};

type Damage = (&'static str, fn(&mut Chance, &mut Vec<u8>));

/// Whatever is done to a file, in words. None of it expects the file to be good still.
const DAMAGES: [Damage; 20] = [
    ("a byte of the mark", |chance, file| set(chance, file, 0..3)),
    ("a byte of the version", |chance, file| set(chance, file, 3..5)),
    ("another count of first values", |chance, file| set(chance, file, 5..6)),
    ("another count of records", |chance, file| set(chance, file, 6..8)),
    ("cut off", |chance, file| {
        let length = *chance.of(&[0, 1, 3, 4, 5, 6, 7, 8, file.len().saturating_sub(1), file.len().saturating_sub(RECORD)]);
        file.truncate(if chance.percent(60) { length } else { chance.below(file.len() + 1) });
    }),
    ("something behind it", |chance, file| file.resize(file.len() + *chance.of(&[1, 3, 8, 11]), 0)),
    ("a byte anywhere", |chance, file| set(chance, file, 0..usize::MAX)),
    ("a byte of the first values", |chance, file| {
        let end = records_at(file);
        set(chance, file, HEADER..end);
    }),
    ("an address of the first values", |chance, file| {
        if let Some(place) = some_first(chance, file) {
            file[place] = *chance.of(&[0, 1, 14, 15, 16, 17, 255]);
        }
    }),
    ("a first value 0", |chance, file| {
        if let Some(place) = some_first(chance, file) {
            file[place + 1..place + FIRST].fill(0);
        }
    }),
    ("a first value more", |chance, file| {
        let address = *chance.of(&[0, 0, 7, 15, 15, 16, 255]);
        more_firsts(file, &[[address, chance.below(3) as u8, chance.below(2) as u8]]);
    }),
    ("first values at more addresses than there are", |chance, file| {
        let from = chance.below(20) as u8;
        let more: Vec<[u8; FIRST]> = (0..chance.between(1, 30) as u8).map(|i| [from + i, 1, 0]).collect();
        more_firsts(file, &more);
    }),
    ("a byte of a record", |chance, file| {
        if let Some(place) = some_record(chance, file) {
            set(chance, file, place..place + RECORD);
        }
    }),
    ("a kind", |chance, file| put(chance, file, 0, &[0, 1, 2, 3, 3, 4, 5, 255])),
    ("a thread", |chance, file| put(chance, file, 1, &[0, 1, 2, 6, 7, 7, 8, 9, 255])),
    ("an address", |chance, file| put(chance, file, 2, &[0, 1, 14, 15, 15, 16, 17, 255])),
    ("the fourth byte", |chance, file| put(chance, file, 3, &[1, 128, 255])),
    ("a first value written", |chance, file| {
        let (first, record) = (some_first(chance, file), some_record(chance, file));
        if let (Some(first), Some(record)) = (first, record) {
            file[record + 2] = file[first];
            file.copy_within(first + 1..first + FIRST, record + 6);
        }
    }),
    ("a record twice", |chance, file| {
        if let Some(place) = some_record(chance, file) {
            let entry = file[place..place + RECORD].to_vec();
            file.extend(entry);
            count_records(file, 1);
        }
    }),
    ("records up to the bound and past it", |chance, file| {
        let records = file.len().saturating_sub(records_at(file)) / RECORD;
        let wanted = chance.between(MOST_RECORDS - 1, MOST_RECORDS + 2);
        for _ in records..wanted {
            file.extend([3, 0, 0, 0, 0, 0, 0, 0]);
        }
        count_records(file, wanted.saturating_sub(records));
    }),
];

/// The file of a trace, mostly with something done to it, at times with several things; seldom no file at all.
pub fn drawn(chance: &mut Chance, trace: &Trace) -> (String, Vec<u8>) {
    let mut file = file_of(trace);
    let times = *chance.of(&[0, 0, 0, 1, 1, 1, 1, 1, 1, 2, 3, 9]);
    if times == 9 {
        return ("bytes by chance".to_string(), by_chance(chance));
    }
    let mut what = vec!["a file"];
    for _ in 0..times {
        what.push(damage(chance, &mut file));
    }
    (what.join(", "), file)
}

/// Something done to it, in words.
pub fn damage(chance: &mut Chance, file: &mut Vec<u8>) -> &'static str {
    let (what, harm) = *chance.of(&DAMAGES);
    harm(chance, file);
    what
}

fn by_chance(chance: &mut Chance) -> Vec<u8> {
    let length = *chance.of(&[0, 1, 2, 3, 4, 5, 6, 7, 8, 9, 11, 16, 24, 100]);
    let mut bytes = chance.bytes(length);
    let front = [&MARK[..], &[1, 0, 0, 0, 0]].concat();
    let marked = chance.below(front.len() + 1).min(length);
    bytes[..marked].copy_from_slice(&front[..marked]);
    bytes
}

/// Another byte at a place within these, as far as the file has them.
fn set(chance: &mut Chance, file: &mut [u8], places: std::ops::Range<usize>) {
    let end = places.end.min(file.len());
    if places.start < end {
        let place = chance.between(places.start, end - 1);
        let (any, bit) = (chance.below(256) as u8, 1 << chance.below(8));
        file[place] = *chance.of(&[0, 1, 2, 255, file[place].wrapping_add(1), file[place].wrapping_sub(1), file[place] ^ bit, any]);
    }
}

/// One of these bytes at this place of some record.
fn put(chance: &mut Chance, file: &mut [u8], field: usize, bytes: &[u8]) {
    if let Some(place) = some_record(chance, file) {
        file[place + field] = *chance.of(bytes);
    }
}

/// Where the records begin, as far as the header says, and never past the end.
fn records_at(file: &[u8]) -> usize {
    file.get(5).map_or(file.len(), |&firsts| (HEADER + FIRST * usize::from(firsts)).min(file.len()))
}

fn some_first(chance: &mut Chance, file: &[u8]) -> Option<usize> {
    let count = records_at(file).saturating_sub(HEADER) / FIRST;
    (count > 0).then(|| HEADER + FIRST * chance.below(count))
}

fn some_record(chance: &mut Chance, file: &[u8]) -> Option<usize> {
    let count = (file.len() - records_at(file)) / RECORD;
    (count > 0).then(|| records_at(file) + RECORD * chance.below(count))
}

/// Behind the others, wherever that leaves their addresses.
fn more_firsts(file: &mut Vec<u8>, entries: &[[u8; FIRST]]) {
    if file.len() >= HEADER {
        let place = records_at(file);
        file.splice(place..place, entries.concat());
        file[5] = file[5].wrapping_add(entries.len() as u8);
    }
}

fn count_records(file: &mut [u8], more: usize) {
    if file.len() >= HEADER {
        let count = u16::from_le_bytes([file[6], file[7]]).wrapping_add(more as u16);
        file[6..8].copy_from_slice(&count.to_le_bytes());
    }
}
