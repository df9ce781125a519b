//! What document 01 states outright: its traces, its bounds, its session on KNOT.

use second::bench::output;
use second::orders::{search, First, Judgement};
use second::reader::{read, MOST_TEXT};
use second::report;
use second::rules::circle;
use second::session::{ask, open, suppose, take_back, Answer};
use second::stated::{KNOT, STATED};
use second::trace::{kept, Model, Record, Trace, ADDRESSES, MODELS, MOST_RECORDS};
use second::verdict::{judge, judgement, lowest_without_source, verdict, Verdict, MOST_STEPS};

fn told(text: &str) -> String {
    output(text.as_bytes(), MOST_STEPS)
}

fn refused(text: &[u8]) -> Option<(u8, usize, Vec<u8>)> {
    read(text).err().map(|refusal| (refusal.number, refusal.line, refusal.part.to_vec()))
}

fn trace(text: &str) -> Trace {
    read(text.as_bytes()).expect("a good text")
}

#[test]
fn traces_to_try() {
    for stated in &STATED {
        assert_eq!(told(stated.text), stated.output(), "{}", stated.name);
    }
}

/// Under all four models, whether the program has them or not.
#[test]
fn traces_to_try_under_every_model() {
    for stated in STATED.iter().filter(|stated| lowest_without_source(&trace(stated.text)).is_none()) {
        let trace = trace(stated.text);
        for (model, line) in Model::KNOWN.into_iter().zip(stated.lines) {
            let verdict = match (circle(&trace, model), search(&trace, model, MOST_STEPS)) {
                (Some(circle), First::None) => Verdict::Circle(circle),
                (None, First::None) => Verdict::NoneLeft,
                (None, First::Order(list)) => Verdict::Order(list),
                other => panic!("{} under {model:?}: {other:?}", stated.name),
            };
            assert_eq!(report::line(model, &verdict), format!("{}: {line}\n", model.name()), "{}", stated.name);
        }
    }
}

#[test]
fn refusals_are_told_in_one_line() {
    assert_eq!(told("0: sync\n0: syn\n"), "refused 3 line 2\n");
    assert_eq!(output(&[b'\n'; MOST_TEXT + 1], MOST_STEPS), "refused 1 line 0\n");
}

#[test]
fn the_most_records_and_one_more() {
    let past = MOST_RECORDS + 1;
    let fences = "0: sync\n".repeat(MOST_RECORDS);
    assert_eq!(trace(&fences).count, MOST_RECORDS);
    let one_more = |line: &str| refused(format!("{fences}{line}").as_bytes());
    assert_eq!(one_more("0: sync\n"), Some((7, past, b"0: sync".to_vec())));
    assert_eq!(one_more("0: sync"), Some((3, past, b"0: sync".to_vec())), "3 ranks before 7");
    assert_eq!(one_more("0: M[0] := 0\n"), Some((6, past, b"0: M[0] := 0".to_vec())), "6 ranks before 7");
    let stores: String = (1..=MOST_RECORDS).map(|value| format!("0: M[0] := {value}\n")).collect();
    assert_eq!(trace(&stores).count, MOST_RECORDS);
    assert_eq!(refused(format!("{stores}0: M[0] := 1\n").as_bytes()).map(|r| r.0), Some(7), "7 ranks before 8");
}

#[test]
fn lines_of_eighty_and_eighty_one_bytes() {
    let line = |length: usize| format!("0: M[0] := {}", "1".repeat(length - 11));
    assert_eq!(refused(format!("{}\n", line(80)).as_bytes()), Some((4, 1, line(80).into_bytes())));
    assert_eq!(refused(format!("{}\n", line(81)).as_bytes()), Some((2, 1, line(81).into_bytes())));
    assert_eq!(refused(line(80).as_bytes()).map(|r| r.0), Some(3));
    assert_eq!(refused(line(81).as_bytes()).map(|r| r.0), Some(2));
}

#[test]
fn the_longest_text_and_one_byte_more() {
    let text: Vec<u8> = b"0: sync\n".iter().copied().cycle().take(MOST_TEXT + 1).collect();
    assert_eq!(refused(&text[..MOST_TEXT]), Some((7, MOST_RECORDS + 1, b"0: sync".to_vec())));
    assert_eq!(refused(&text), Some((1, 0, Vec::new())));
}

#[test]
fn numbers_at_their_bounds() {
    let above: String = (0..7).map(|thread| format!("{thread}: sync\n")).collect();
    let number = |line: &str| refused(format!("{above}{line}\n").as_bytes()).map_or(0, |refusal| refusal.0);
    for (line, wanted) in [
        ("7: sync", 0),
        ("8: sync", 4),
        ("7: M[15] := 65535", 0),
        ("8: M[0] := 1", 4),
        ("0: M[16] := 1", 4),
        ("0: M[0] := 65536", 4),
        ("0: M[0] == 65536", 4),
        ("0: M[01] := 1", 3),
        ("0: M[0] := 0", 6),
        ("0: M[0] == 0", 0),
        ("0: { M[0] == 1; M[1] := 0 }", 5),
        ("0: { M[0] == 1; M[16] := 0 }", 4),
        ("0: { M[0] == 1; M[0] := 0 }", 6),
        ("0: { M[0] == 0; M[0] := 1 }", 0),
        ("", 3),
        ("0: M[0] := 184467440737095516150", 4),
        ("0: M[0] = 1", 3),
        ("0: M[0] := 1\r", 3),
    ] {
        assert_eq!(number(line), wanted, "{line}");
    }
}

#[test]
fn a_value_written_twice_at_one_address() {
    assert_eq!(refused(b"0: M[0] := 1\n1: { M[0] == 2; M[0] := 1 }\n").map(|r| (r.0, r.1)), Some((8, 2)));
    assert_eq!(refused(b"0: M[0] := 1\n1: M[1] := 1\n"), None, "at two addresses");
    assert_eq!(refused(b"0: M[0] == 1\n1: M[0] := 1\n"), None, "read before is not written before");
}

/// Document 02, request 1.
#[test]
fn init_lines() {
    for (text, wanted) in [
        ("init: M[3] := 7\n", None),
        ("init: M[15] := 65535\ninit: M[0] := 0\n", None),
        ("init: M[3] := 7\n0: M[3] := 0\n0: M[2] := 7\n", None),
        ("init: M[3] := 7\n0: M[3] == 7\n0: M[3] == 0\n", None),
        ("init: M[3] := 7\n0: M[3] := 7\n", Some((6, 2))),
        ("init: M[3] := 7\n0: { M[3] == 1; M[3] := 7 }\n", Some((6, 2))),
        ("init: M[3] := 7\n0: M[2] := 0\n", Some((6, 2))),
        ("init: M[3] := 0\n0: M[3] := 0\n", Some((6, 2))),
        ("init: M[3] := 7\n0: M[3] := 0\n1: M[3] := 0\n", Some((8, 3))),
        ("init: M[3] := 7\ninit: M[3] := 7\n", Some((17, 2))),
        ("init: M[3] := 0\ninit: M[4] := 7\ninit: M[3] := 7\n", Some((17, 3))),
        ("0: sync\ninit: M[3] := 7\n", Some((17, 2))),
        ("0: M[3] == 0\ninit: M[2] := 0\n", Some((17, 2))),
        ("0: sync\ninit: M[16] := 7\n", Some((4, 2))),
        ("init: M[3] := 7\ninit: M[3] := 65536\n", Some((4, 2))),
        ("init: M[3] := 7\ninit: M[3] := 7", Some((3, 2))),
        ("init: M[16] := 7\n", Some((4, 1))),
        ("init: M[3] := 65536\n", Some((4, 1))),
        ("init: M[03] := 7\n", Some((3, 1))),
        ("init: M[3] := 07\n", Some((3, 1))),
        ("init: M[3] == 7\n", Some((3, 1))),
        ("init: sync\n", Some((3, 1))),
        ("init: { M[3] == 0; M[3] := 7 }\n", Some((3, 1))),
        ("init:  M[3] := 7\n", Some((3, 1))),
        ("init M[3] := 7\n", Some((3, 1))),
        ("Init: M[3] := 7\n", Some((3, 1))),
        ("init: M[3] := 7 \n", Some((3, 1))),
        ("init: M[3] := 7\n\n", Some((3, 2))),
    ] {
        assert_eq!(refused(text.as_bytes()).map(|refusal| (refusal.0, refusal.1)), wanted, "{text}");
    }
    let read = trace("init: M[3] := 7\ninit: M[15] := 65535\ninit: M[0] := 0\n0: sync\n");
    let firsts = [0, 0, 0, 7, 0, 0, 0, 0, 0, 0, 0, 0, 0, 0, 0, 65_535];
    assert_eq!((read.count, read.firsts, read.places[0]), (1, firsts, Record::Fence { thread: 0 }));
}

/// Sixteen init lines leave room for as many records as before.
#[test]
fn init_lines_are_no_records() {
    let inits: String = (0..16).map(|address| format!("init: M[{address}] := 9\n")).collect();
    let full = format!("{inits}{}", "0: sync\n".repeat(MOST_RECORDS));
    assert_eq!(trace(&full).count, MOST_RECORDS);
    let past = MOST_RECORDS + 17;
    assert_eq!(refused(format!("{full}0: sync\n").as_bytes()).map(|r| (r.0, r.1)), Some((7, past)));
    assert_eq!(refused(format!("{full}0: M[5] := 9\n").as_bytes()).map(|r| (r.0, r.1)), Some((6, past)));
    assert_eq!(refused(format!("{full}init: M[5] := 9\n").as_bytes()).map(|r| (r.0, r.1)), Some((17, past)), "not 7");
}

/// Document 02, request 8.
#[test]
fn threads_that_are_skipped() {
    for (text, wanted) in [
        ("", None),
        ("0: sync\n", None),
        ("1: sync\n0: sync\n", None),
        ("1: M[0] == 0\n0: sync\n2: M[0] := 1\n", None),
        ("init: M[1] := 1\n", None),
        ("1: sync\n", Some((22, 0))),
        ("7: M[0] := 1\n", Some((22, 0))),
        ("init: M[0] := 1\n1: sync\n", Some((22, 0))),
        ("0: sync\n2: sync\n2: sync\n0: sync\n", Some((22, 0))),
        ("0: M[0] := 1\n1: M[0] := 2\n3: M[0] := 3\n", Some((22, 0))),
        ("1: sync\n1: syn\n", Some((3, 2))),
        ("1: sync\n8: sync\n", Some((4, 2))),
        ("1: sync\n1: M[0] := 0\n", Some((6, 2))),
        ("1: sync\ninit: M[0] := 1\n", Some((17, 2))),
        ("1: sync\n1: sync", Some((3, 2))),
    ] {
        assert_eq!(refused(text.as_bytes()), wanted.map(|(number, line)| (number, line, nth(text, line))), "{text}");
    }
    let all: Vec<String> = (0..8).rev().map(|thread| format!("{thread}: sync\n")).collect();
    assert_eq!(refused(all.concat().as_bytes()), None);
    for gone in 0..8 {
        let rest: String = all.iter().enumerate().filter(|(place, _)| *place != gone).map(|(_, line)| line.as_str()).collect();
        assert_eq!(refused(rest.as_bytes()).map(|r| r.0), if gone == 0 { None } else { Some(22) }, "without thread {}", 7 - gone);
    }
    assert_eq!(told("1: sync\n"), "refused 22 line 0\n");
    let records = format!("{}1: sync\n", "0: sync\n".repeat(MOST_RECORDS - 1));
    assert_eq!(refused(records.as_bytes()), None);
    assert_eq!(refused(format!("{records}3: sync\n").as_bytes()).map(|r| r.0), Some(7));
}

/// The line of that number; line 0 is the empty part.
fn nth(text: &str, line: usize) -> Vec<u8> {
    line.checked_sub(1).and_then(|above| text.lines().nth(above)).unwrap_or("").as_bytes().to_vec()
}

/// A trace handed in by value is not held to 22.
#[test]
fn by_value_a_thread_may_be_skipped() {
    let lost = Trace::of(&[Record::Store { thread: 3, address: 0, written: 1 }, Record::Load { thread: 7, address: 0, read: 1 }]);
    assert!(lost.well_formed() && lost.skips_a_thread());
    assert_eq!(verdict(&lost, 1, 1), Ok(Verdict::Order(vec![0, 1])));
    assert_eq!(judge(&lost, 1, &[0, 1]), Ok(true));
    let session = open(&lost, 1).expect("it opens");
    assert_eq!(ask(&session, 0, 1), Ok(Answer::Held));
}

#[test]
fn verdicts_with_first_values() {
    let all = |lines: [&str; 4]| {
        let told = ["SC", "TSO", "PSO", "WMO"].iter().zip(lines).take(MODELS);
        told.map(|(name, line)| format!("{name}: {line}\n")).collect::<String>()
    };
    for (text, lines) in [
        ("init: M[0] := 7\n", ["order"; 4]),
        ("init: M[0] := 7\n0: M[0] == 7\n", ["order 0"; 4]),
        ("init: M[0] := 7\n0: M[0] == 0\n", ["no order, no source 0"; 4]),
        ("init: M[0] := 7\n0: M[1] == 0\n0: M[1] == 7\n", ["no order, no source 1"; 4]),
        // The one document 01 has for every address at 0, and one where 0 is a value like any other.
        (
            "init: M[1] := 6\ninit: M[0] := 5\n0: M[0] := 1\n0: M[1] == 6\n1: M[1] := 1\n1: M[0] == 5\n",
            ["no order, circle 0 1 2 3 by 1 4 1 4", "order 1 2 3 0", "order 1 2 3 0", "order 1 2 3 0"],
        ),
        ("init: M[1] := 1\n0: M[1] := 0\n1: M[1] == 1\n1: M[1] == 0\n1: M[1] == 1\n", ["no order, circle 0 2 3 by 2 1 4"; 4]),
        ("init: M[1] := 1\n1: M[1] == 1\n1: M[1] == 0\n0: M[1] := 0\n", ["order 0 2 1"; 4]),
        (
            "init: M[0] := 3\n0: M[0] := 0\n0: M[0] == 3\n",
            ["no order, circle 0 1 by 1 4", "no order, circle 0 1 by 5 4", "no order, circle 0 1 by 5 4", "no order, circle 0 1 by 5 4"],
        ),
        // A swap that takes the first value, and another that comes too late for it.
        ("init: M[0] := 3\n0: { M[0] == 3; M[0] := 0 }\n1: { M[0] == 3; M[0] := 1 }\n", ["no order, circle 0 1 by 4 4"; 4]),
        ("init: M[0] := 3\n0: { M[0] == 1; M[0] := 0 }\n1: { M[0] == 3; M[0] := 1 }\n", ["order 1 0"; 4]),
    ] {
        assert_eq!(told(text), all(lines), "{text}");
    }
}

#[test]
fn models_and_traces_handed_in() {
    let good = trace("0: M[0] := 1\n");
    let mut bad = good.clone();
    bad.places[MOST_RECORDS - 1] = Record::Fence { thread: 1 };
    assert_eq!(verdict(&good, 0, 1), Err(9));
    let past = MODELS as u64 + 1;
    assert_eq!(verdict(&good, past, 1), Err(9));
    assert_eq!(verdict(&bad, past, 1), Err(9));
    assert!((1..past).all(|model| verdict(&good, model, 1).is_ok()));
    assert_eq!(verdict(&bad, 1, 1), Err(10));
    assert_eq!(judge(&bad, 2, &[]), Err(10));
    assert!(verdict(&good, 2, 1).is_ok());
}

/// Of two records of one thread by first kind, second kind and whether they go to one address: which models keep the pair without a fence.
#[test]
fn kept_pairs_one_by_one() {
    let kinds = ["M[0] == 0", "M[0] := 1", "{ M[0] == 0; M[0] := 1 }"];
    let elsewhere = ["M[1] == 0", "M[1] := 1", "{ M[1] == 0; M[1] := 1 }"];
    let there = ["M[0] == 0", "M[0] := 2", "{ M[0] == 0; M[0] := 2 }"];
    // Load, store, swap first; in each row load, store, swap second. A letter for each model that keeps the pair: s, t, p, w.
    let at_two = [["stp", "stp", "stp"], ["s", "st", "st"], ["stp", "stp", "stp"]];
    let at_one = [["stpw", "stpw", "stpw"], ["s", "stpw", "stpw"], ["stpw", "stpw", "stpw"]];
    for (a, first) in kinds.iter().enumerate() {
        for (second, wanted) in (0..3).flat_map(|b| [(elsewhere[b], at_two[a][b]), (there[b], at_one[a][b])]) {
            let free = trace(&format!("0: {first}\n1: sync\n0: {second}\n"));
            let fenced = trace(&format!("0: {first}\n0: sync\n0: {second}\n"));
            for (model, letter) in Model::KNOWN.into_iter().zip("stpw".chars()) {
                assert_eq!(kept(&free, model, 0, 2), wanted.contains(letter), "{model:?} {first} {second}");
                assert!(kept(&fenced, model, 0, 2) && !kept(&free, model, 2, 0));
            }
        }
    }
}

#[test]
fn what_spoils_the_form() {
    let store = |address, written| Record::Store { thread: 0, address, written };
    let well = |records: &[Record]| Trace::of(records).well_formed();
    assert!(well(&[store(15, 65_535), Record::Load { thread: 7, address: 0, read: 9 }]), "a value nobody wrote may be read");
    assert!(!well(&[store(16, 1)]));
    assert!(!well(&[store(0, 65_536)]));
    assert!(!well(&[store(0, 0)]));
    assert!(!well(&[store(0, 1), Record::Swap { thread: 1, address: 0, read: 0, written: 1 }]));
    assert!(!well(&[Record::Fence { thread: 8 }]));
    assert!(!Trace { count: MOST_RECORDS + 1, ..Trace::empty() }.well_formed());
    assert!(Trace { count: MOST_RECORDS, ..Trace::empty() }.well_formed());
    let behind = |first, written| Trace::with([first; ADDRESSES], &[store(3, written)]).well_formed();
    assert!(behind(7, 0) && behind(65_535, 7));
    assert!(!behind(7, 7) && !behind(65_536, 7));
}

#[test]
fn lists_judged() {
    let trace = trace("0: M[0] := 1\n0: sync\n1: M[0] == 1\n");
    for (list, yes) in [
        (&[0, 2][..], true),
        (&[2, 0], false),
        (&[0], false),
        (&[0, 2, 2], false),
        (&[0, 1, 2], false),
        (&[0, 3], false),
        (&[0, 2, usize::MAX], false),
        (&[], false),
    ] {
        assert_eq!(judge(&trace, 1, list), Ok(yes), "{list:?}");
    }
}

/// Records 0 and 2 of thread 0, 3 of thread 1, 5 and 6 of thread 2; 1 and 4 are fences.
#[test]
fn why_a_list_is_no_order() {
    let trace = trace("0: M[0] := 1\n0: sync\n0: M[1] := 1\n1: M[1] == 1\n2: sync\n2: M[0] == 1\n2: M[0] == 1\n");
    for (list, wanted) in [
        (&[0, 2, 3, 5, 6][..], Judgement::Valid),
        (&[0, 5, 6, 2, 3], Judgement::Valid),
        (&[], Judgement::WrongLength),
        (&[0, 2, 3, 5], Judgement::WrongLength),
        (&[0, 2, 3, 5, 6, 9], Judgement::WrongLength),
        (&[1, 1, 9], Judgement::WrongLength),
        (&[0, 2, 9, 4, 2], Judgement::BadNumber(2)),
        (&[0, 2, 2, 4, 7], Judgement::BadNumber(3)),
        (&[0, 2, 2, 5, usize::MAX], Judgement::BadNumber(4)),
        (&[5, 5, 2, 2, 0], Judgement::Repeat(2)),
        (&[5, 5, 5, 5, 5], Judgement::Repeat(5)),
        (&[6, 5, 2, 0, 3], Judgement::OutOfTurn(0, 2)),
        (&[3, 6, 5, 0, 2], Judgement::OutOfTurn(5, 6)),
        (&[5, 6, 0, 3, 2], Judgement::WrongValue(3)),
        (&[5, 0, 2, 3, 6], Judgement::WrongValue(5)),
    ] {
        assert_eq!(judgement(&trace, 1, list), Ok(wanted), "{list:?}");
        assert_eq!(judge(&trace, 1, list), Ok(wanted == Judgement::Valid), "{list:?}");
    }
    let mut bad = trace.clone();
    bad.count = MOST_RECORDS + 1;
    assert_eq!([judgement(&bad, 0, &[]), judgement(&bad, 1, &[])], [Err(9), Err(10)]);
}

/// Of two pairs with one first record the one with the lower second; and swaps read too.
#[test]
fn the_lowest_pair_and_the_lowest_value() {
    let trace = trace("0: M[0] == 0\n0: M[1] := 1\n0: { M[1] == 1; M[1] := 2 }\n1: M[1] == 2\n");
    for (list, wanted) in [
        (&[0, 1, 2, 3][..], Judgement::Valid),
        (&[2, 1, 0, 3], Judgement::OutOfTurn(0, 1)),
        (&[2, 0, 1, 3], Judgement::OutOfTurn(0, 2)),
        (&[0, 2, 1, 3], Judgement::OutOfTurn(1, 2)),
        (&[0, 1, 3, 2], Judgement::WrongValue(3)),
    ] {
        assert_eq!(judgement(&trace, 1, list), Ok(wanted), "{list:?}");
    }
}

#[test]
fn a_session_on_knot() {
    for model in [1, 2] {
        let session = open(&trace(KNOT), model).expect("KNOT opens");
        assert!(!session.contradicted);
        for (x, y) in [(2, 8), (8, 2)] {
            assert_eq!(ask(&session, x, y), Ok(Answer::NotHeld));
            let supposed = suppose(&session, x, y).expect("good numbers");
            assert!(supposed.contradicted && supposed.held.is_empty());
            assert_eq!(ask(&supposed, 0, 3), Ok(Answer::Contradicted));
            assert_eq!(suppose(&supposed, 0, 3).map(|more| more.pairs.len()), Ok(2), "pairs may still be supposed");
            assert_eq!(take_back(&supposed).as_ref(), Ok(&session));
        }
    }
}

#[test]
fn sixteen_and_seventeen_pairs() {
    let mut session = open(&trace("0: M[0] := 1\n1: M[1] := 1\n1: sync\n"), 2).expect("opens");
    for _ in 0..16 {
        session = suppose(&session, 0, 1).expect("a pair already held is stacked");
    }
    assert_eq!(suppose(&session, 0, 1), Err((15, session.clone())));
    assert_eq!(suppose(&session, 0, 2), Err((13, session.clone())));
    assert_eq!(suppose(&session, 1, 1), Err((14, session.clone())));
    assert_eq!(suppose(&session, 3, 3), Err((13, session.clone())));
    for left in (0..16).rev() {
        session = take_back(&session).expect("a pair stands");
        assert_eq!(session.pairs.len(), left);
        assert_eq!(ask(&session, 0, 1), Ok(if left > 0 { Answer::Held } else { Answer::NotHeld }));
    }
    assert_eq!(take_back(&session), Err((16, session.clone())));
}

#[test]
fn openings_turned_back() {
    let empty = open(&Trace::empty(), 1).expect("the empty trace opens");
    let no_source = trace("0: M[0] := 1\n0: M[0] == 2\n");
    let told = |trace: &Trace, model| open(trace, model).map_err(|refused| (refused.number, refused.session));
    assert!(told(&no_source, 2).is_ok(), "a load that waits forbids nothing");
    assert_eq!(told(&no_source, 5), Err((9, empty.clone())));
    let mut spoilt = no_source;
    spoilt.places[0] = Record::Fence { thread: 9 };
    assert_eq!(told(&spoilt, 2), Err((10, empty)));
    let circle = open(&trace("0: M[0] := 1\n0: M[0] == 0\n"), 1).expect("a circle does not refuse the opening");
    assert!(circle.contradicted && circle.held.is_empty());
}

#[test]
fn sessions_that_nobody_opened() {
    let good = suppose(&open(&trace("0: M[0] := 1\n1: M[1] := 1\n"), 1).expect("opens"), 0, 1).expect("good");
    let mut changed = vec![good.clone(); 8];
    changed[0].held.clear();
    changed[1].contradicted = true;
    changed[2].model = MODELS as u64 + 1;
    changed[3].model = 0;
    changed[4].pairs.push((0, 0));
    changed[5].pairs = vec![(0, 1); 17];
    changed[6].trace.count = MOST_RECORDS + 1;
    changed[7].trace.places[2] = Record::Fence { thread: 1 };
    for session in changed {
        assert_eq!(ask(&session, 9, 9), Err((12, session.clone())), "12 ranks before 13");
        assert_eq!(suppose(&session, 0, 1), Err((12, session.clone())));
        assert_eq!(take_back(&session), Err((12, session.clone())));
    }
    let mut other_model = good.clone();
    other_model.model = 2;
    assert_eq!(ask(&other_model, 0, 1), Ok(Answer::Held), "under TSO this session would be the same: it is sound");
}

#[test]
fn a_session_in_words() {
    let trace = trace("0: M[0] := 1\n0: M[1] == 0\n1: M[1] := 1\n1: M[0] == 0\n0: sync\n");
    let words = ["ask", "1", "2", "suppose", "0", "1", "suppose", "2", "3", "ask", "0", "1", "back", "ask", "4", "4", "back", "back"];
    let wanted = "open: held 1-2 3-0\nask 1 2: held\nsuppose 0 1: held 0-1 0-2 1-2 3-0 3-1 3-2\nsuppose 2 3: contradicted\n\
                  ask 0 1: contradicted\nback: held 0-1 0-2 1-2 3-0 3-1 3-2\nask 4 4: refused 13\nback: held 1-2 3-0\nback: refused 16\n";
    assert_eq!(second::script::answers(&trace, 2, &words).as_deref(), Some(wanted));
    assert_eq!(second::script::answers(&trace, 2, &["ask", "1"]), None);
}

/// The steps of the plain search on KNOT, as request 7's figures say; under PSO and WMO it ends with an order.
#[test]
fn the_steps_on_knot() {
    let trace = second::reader::read(second::stated::KNOT.as_bytes()).expect("a good text");
    let steps = |model| second::orders::plain_steps(&trace, model, 2_000_000).expect("within two million");
    let counts: Vec<u64> = Model::all().iter().map(|&model| steps(model).1).collect();
    assert_eq!(counts, [1_006_638, 1_929_410, 756_472, 177_091]);
    assert_eq!(second::orders::plain_steps(&trace, Model::Sc, 1_006_637), None);
}
