//! The packed trace file: bytes worked out by hand from document 02, and what holds of every file.

use second::chance::Chance;
use second::families::{text, FAMILIES};
use second::files::drawn;
use second::packed::{file_of, read, read_entries, write, Refusal};
use second::reader;
use second::trace::{text_of, Record, Trace, ADDRESSES, MOST_RECORDS};
use std::collections::BTreeSet;

const TEXT: &str =
    "init: M[15] := 65535\ninit: M[3] := 7\ninit: M[4] := 0\n0: M[3] := 31\n1: M[3] == 31\n0: { M[3] == 31; M[3] := 434 }\n2: sync\n";

/// 434 is 256 + 178.
const FILE: [u8; 46] = [
    0x50, 0x59, 0x52, 1, 0, 2, 4, 0, // mark, version, two first values, four records
    3, 7, 0, // first values
    15, 255, 255, //
    1, 0, 3, 0, 0, 0, 31, 0, // store
    0, 1, 3, 0, 31, 0, 0, 0, // load
    2, 0, 3, 0, 31, 0, 178, 1, // swap
    3, 2, 0, 0, 0, 0, 0, 0, // fence
];

fn trace(text: &str) -> Trace {
    reader::read(text.as_bytes()).expect("a good text")
}

/// The number and the line, (0, 0) where nothing is wrong.
fn told(file: &[u8]) -> (u8, usize) {
    read(file).map_or_else(|refusal| (refusal.number, refusal.line), |_| (0, 0))
}

/// `FILE` with these bytes at this place.
fn with(place: usize, bytes: &[u8]) -> Vec<u8> {
    let mut file = FILE.to_vec();
    file[place..][..bytes.len()].copy_from_slice(bytes);
    file
}

#[test]
fn a_file_byte_for_byte() {
    let read_trace = trace(TEXT);
    assert_eq!(file_of(&read_trace), FILE);
    assert_eq!(read(&FILE), Ok(read_trace));
    assert_eq!(file_of(&Trace::empty()), *b"PYR\x01\0\0\0\0");
    assert_eq!(read(b"PYR\x01\0\0\0\0"), Ok(Trace::empty()));
}

/// Each with the faults of later rank that it has too, so that the rank is seen.
#[test]
fn what_is_wrong_outside_the_entries() {
    assert_eq!([told(b""), told(b"P"), told(b"PYR\x01"), told(b"PYR\x02")], [(18, 0); 4], "too short for mark and version");
    assert_eq!(told(b"PYR\x02\0"), (19, 0));
    assert_eq!(told(b"PYR\x01\x01"), (19, 0));
    assert_eq!([told(b"PYR\x01\0"), told(b"PYR\x01\0\0"), told(b"PYR\x01\0\0\0")], [(18, 0); 3], "too short for the counts");
    assert_eq!([told(b"pYR\x01\0\0\0\0"), told(b"PYr\x02\0\0\0\0")], [(18, 0); 2], "the mark before the version");
    assert_eq!(
        [told(b"PYR\0\x01\0\0\0"), told(b"PYR\0\0\0\0\0"), told(b"PYR\x02\0\0\0\0\0")],
        [(19, 0); 3],
        "the version before the length"
    );
    assert_eq!(
        [told(&FILE[..45]), told(&[&FILE[..], &[0]].concat()), told(b"PYR\x01\0\x01\0\0"), told(b"PYR\x01\0\0\x01\0")],
        [(18, 0); 4]
    );
    assert_eq!(told(b"PYR\x01\0\0\x01\x01"), (18, 0), "the length before the count of records");
    assert_eq!(told(&with(7, &[1])), (18, 0));
}

#[test]
fn the_most_records_and_one_more() {
    let fences = |count: usize| [&b"PYR\x01\0\0"[..], &(count as u16).to_le_bytes(), &[3, 0, 0, 0, 0, 0, 0, 0].repeat(count)].concat();
    assert_eq!(told(&fences(MOST_RECORDS)), (0, 0));
    let mut past = fences(MOST_RECORDS + 1);
    assert_eq!(told(&past), (7, MOST_RECORDS + 1));
    past[8] = 4;
    assert_eq!(told(&past), (7, MOST_RECORDS + 1), "7 before any entry");
    assert_eq!(told(&fences(65_535)), (7, MOST_RECORDS + 1));
    let mut last = fences(MOST_RECORDS);
    last[8 * MOST_RECORDS] = 4;
    assert_eq!(told(&last), (20, MOST_RECORDS));
}

#[test]
fn what_is_wrong_with_a_first_value() {
    let firsts = |entries: &[[u8; 3]]| told(&[&b"PYR\x01\0"[..], &[entries.len() as u8], &[0, 0], &entries.concat()].concat());
    assert_eq!(firsts(&[[0, 1, 0], [15, 0, 1]]), (0, 0));
    assert_eq!(firsts(&[[3, 0, 0]]), (20, 0));
    assert_eq!(firsts(&[[3, 1, 0], [3, 2, 0]]), (20, 0));
    assert_eq!(firsts(&[[4, 1, 0], [3, 2, 0]]), (20, 0));
    assert_eq!(firsts(&[[16, 1, 0]]), (4, 0));
    assert_eq!(firsts(&[[16, 0, 0]]), (20, 0), "20 before 4");
    assert_eq!(firsts(&[[16, 1, 0], [3, 0, 0]]), (4, 0), "from the top");
    let all: Vec<[u8; 3]> = (0..=255).map(|address| [address, 1, 0]).collect();
    assert_eq!(firsts(&all[..16]), (0, 0));
    assert_eq!(firsts(&all[..17]), (4, 0));
    assert_eq!(firsts(&all[..255]), (4, 0));
    assert_eq!(told(&with(8, &[3, 0, 0, 2, 1])), (20, 0), "first values before records");
}

/// The records of `FILE` begin at 14, 22, 30 and 38.
#[test]
fn what_is_wrong_with_a_record() {
    for (place, bytes, wanted) in [
        (14, &[4][..], (20, 1)),
        (14, &[255, 8, 16], (20, 1)),
        (17, &[1], (20, 1)),
        (18, &[1], (20, 1)),
        (19, &[1], (20, 1)),
        (28, &[1], (20, 2)),
        (29, &[1], (20, 2)),
        (25, &[9], (20, 2)),
        (33, &[1], (20, 3)),
        (40, &[1], (20, 4)),
        (41, &[1], (20, 4)),
        (42, &[1], (20, 4)),
        (43, &[1], (20, 4)),
        (44, &[1], (20, 4)),
        (45, &[1], (20, 4)),
        (15, &[8], (4, 1)),
        (15, &[8, 3, 1], (20, 1)),
        (16, &[16], (4, 1)),
        (24, &[16], (4, 2)),
        (32, &[255], (4, 3)),
        (39, &[8], (4, 4)),
        (20, &[7], (6, 1)),
        (15, &[8, 3, 0, 0, 0, 7], (4, 1)),
        (36, &[7, 0], (6, 3)),
        (36, &[31, 0], (8, 3)),
        (36, &[0, 0], (0, 0)),
        (20, &[0], (0, 0)),
        (34, &[99], (0, 0)),
        (39, &[1], (0, 0)),
        (39, &[7], (22, 0)),
        (23, &[3], (22, 0)),
        (23, &[3, 3, 0, 31, 0, 1], (20, 2)),
    ] {
        assert_eq!(told(&with(place, bytes)), wanted, "{bytes:?} at {place}");
    }
    assert_eq!(told(&with(9, &[31])), (6, 1), "the first value is what the store writes");
    let one = |entry: [u8; 8]| told(&[&b"PYR\x01\0\0\x01\0"[..], &entry].concat());
    assert_eq!(one([1, 0, 0, 0, 0, 0, 0, 0]), (6, 1), "0 is the first value where no other stands");
    assert_eq!(one([2, 0, 0, 0, 5, 0, 0, 0]), (6, 1));
    assert_eq!(one([0, 0, 15, 0, 255, 255, 0, 0]), (0, 0));
    assert_eq!(one([0, 1, 15, 0, 255, 255, 0, 0]), (22, 0));
    assert_eq!(one([3, 1, 0, 0, 0, 0, 0, 0]), (22, 0));
}

#[test]
fn the_writer() {
    let good = trace(TEXT);
    for room in [46, 47, 99] {
        let mut lent = vec![77; room];
        assert_eq!(write(&good, &mut lent), Ok(46));
        assert_eq!(lent, [&FILE[..], &vec![77; room - 46]].concat());
    }
    let lost = Trace::of(&[Record::Fence { thread: 1 }]);
    let mut spoilt = lost.clone();
    spoilt.places[MOST_RECORDS - 1] = Record::Fence { thread: 1 };
    for (trace, wanted) in [(&good, 21), (&lost, 22), (&spoilt, 10)] {
        let mut lent = vec![77; 15];
        assert_eq!(write(trace, &mut lent), Err(wanted));
        assert_eq!(lent, [77; 15]);
    }
    assert_eq!([write(&lost, &mut [0; 99]), write(&spoilt, &mut [0; 99])], [Err(22), Err(10)]);
    assert_eq!(write(&good, &mut [0; 45]), Err(21));
    assert_eq!(read_entries(&file_of(&lost)), Ok(lost), "by value it is a trace all the same");
    let longest = Trace::with([1; ADDRESSES], &[Record::Fence { thread: 0 }; MOST_RECORDS]);
    assert_eq!(write(&longest, &mut [0; 2_104]), Ok(8 + 3 * 16 + 8 * 256));
}

/// Every byte of every place: what is read then is a trace whose file these bytes are, so no two files are of one trace.
#[test]
fn another_byte_is_another_trace_or_none() {
    let mut numbers = BTreeSet::new();
    for (place, byte) in (0..FILE.len()).flat_map(|place| (0..=255).map(move |byte| (place, byte))) {
        let file = with(place, &[byte]);
        match read(&file) {
            Ok(trace) => {
                assert!(trace.well_formed() && !trace.skips_a_thread());
                assert_eq!(file_of(&trace), file);
            }
            Err(refusal) => drop(numbers.insert(refusal.number)),
        }
    }
    // For 8 two bytes would have to be others.
    assert_eq!(numbers, [4, 6, 18, 19, 20, 22].into());
    assert!((0..FILE.len()).all(|length| read(&FILE[..length]) == Err(Refusal { number: 18, line: 0 })));
}

#[test]
fn texts_and_files_say_the_same() {
    let (mut chance, mut seen, mut good) = (Chance::new(29), BTreeSet::new(), 0);
    for (family, case) in FAMILIES.iter().filter(|family| !family.seldom).flat_map(|family| (0..150).map(move |case| (family, case))) {
        let Ok(trace) = reader::read_lines(&text(family, 13, case)) else { continue };
        let file = file_of(&trace);
        assert_eq!(read_entries(&file).as_ref(), Ok(&trace));
        let (told, wanted) = (read(&file).map_err(|r| (r.number, r.line)), reader::read(&text_of(&trace)).map_err(|r| (r.number, r.line)));
        assert_eq!(told, wanted);
        for _ in 0..6 {
            let (what, file) = drawn(&mut chance, &trace);
            match read(&file) {
                Ok(trace) => {
                    good += 1;
                    assert_eq!(file_of(&trace), file, "{what}");
                }
                Err(refusal) => drop(seen.insert((refusal.number, refusal.line.min(1)))),
            }
        }
    }
    assert!(good > 1_000, "{good}");
    assert_eq!(seen, [(4, 0), (4, 1), (6, 1), (7, 1), (8, 1), (18, 0), (19, 0), (20, 0), (20, 1), (22, 0)].into());
}
