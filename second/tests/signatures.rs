//! Signatures: examples worked out by hand, and the way there and back.

use second::chance::Chance;
use second::reader::read;
use second::signatures::{layout, list, loads, pack, pack_into, unpack, unpack_into};
use second::trace::{Record, Trace};

const EXAMPLE: &str = "init: M[0] := 7\n0: M[0] := 1\n1: M[0] := 2\n1: M[0] == 1\n1: { M[0] == 7; M[0] := 3 }\n";

#[test]
fn the_example_of_the_guide() {
    let trace = read(EXAMPLE.as_bytes()).ok().expect("a good text");
    assert_eq!(list(&trace, 2), [7, 1, 2, 3]);
    assert_eq!(list(&trace, 3), [7, 1, 2]);
    let mut words = [9];
    assert_eq!(pack_into(&trace, &mut words), 0);
    assert_eq!(words, [1]);
    let mut reads = [9, 9];
    assert_eq!(unpack_into(&trace, &[11], &mut reads), 0);
    assert_eq!(reads, [3, 2]);
    assert_eq!(unpack_into(&trace, &[12], &mut reads), 24);
    assert_eq!(unpack_into(&trace, &[11, 0], &mut reads), 26);
    assert_eq!(reads, [3, 2]);
}

/// Three writers, and so many loads of four choices each on core 0.
fn fours(count: usize) -> Trace {
    let mut records: Vec<Record> = (1..4).map(|written| Record::Store { thread: 0, address: 0, written }).collect();
    records.extend((0..count).map(|_| Record::Load { thread: 0, address: 0, read: 3 }));
    Trace::of(&records)
}

#[test]
fn a_product_of_exactly_2_to_the_64th_stays_in_its_word() {
    assert_eq!(layout(&fours(32)).len(), 1);
    assert_eq!(layout(&fours(33)).iter().map(Vec::len).collect::<Vec<_>>(), [32, 1]);
    let mut words = [0; 2];
    assert_eq!(pack_into(&fours(33), &mut words), 0);
    assert_eq!(words, [u64::MAX, 3]);
}

#[test]
fn what_is_outside_its_list_is_told_with_the_lowest_record() {
    let load = |read| Record::Load { thread: 0, address: 0, read };
    let swap = Record::Swap { thread: 0, address: 0, read: 5, written: 5 };
    let mut words = [8];
    assert_eq!(pack_into(&Trace::of(&[load(0), swap, load(6)]), &mut words), 23 + 256);
    assert_eq!(words, [8]);
    assert_eq!(pack_into(&Trace::of(&[load(0), swap, load(6)]), &mut []), 26);
}

#[test]
fn there_and_back() {
    for case in 0..2_000 {
        let mut chance = Chance::of_case(13, case);
        let mut records = Vec::new();
        for written in 1..=chance.below(90) as u64 {
            let (thread, address) = (chance.below(8) as u64, chance.below(4) as u64);
            records.push(match chance.below(3) {
                0 => Record::Store { thread, address, written },
                1 => Record::Swap { thread, address, read: 0, written },
                _ => Record::Load { thread, address, read: 0 },
            });
        }
        let trace = Trace::of(&records);
        let reads: Vec<u64> =
            (0..trace.count).map(|x| if trace.places[x].read().is_some() { *chance.of(&list(&trace, x)) } else { 0 }).collect();
        let words = pack(&trace, |load| reads[load]).expect("listed");
        let wanted: Vec<u64> = loads(&trace).iter().map(|&load| reads[load]).collect();
        assert_eq!(unpack(&trace, &words), Ok(wanted));
    }
}
