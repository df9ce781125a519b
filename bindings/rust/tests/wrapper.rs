//! Each kind of answer through the safe functions, worked out from document 01.

use wheelotter::{
    accepts, check, check_file, entries, judge, limited, pack, paper, report, run, smaller, steps, unpack, verdict, Answer, Asked,
    FileRefusal, Judgement, Limited, Model, Paper, Ran, Record, Refusal, Session, Smaller, Verdict,
};
use wheelotter::{
    BYTES_AT, COUNT, COUNTED, ENTRIES, FILE, FIRST, FIRSTS, HEAD, JUDGEMENT, LEFT, LIMITED, LIST, MARK, MODELS, OLDS, OPERATIONS,
    PACKED as PACKED_ROOM, PAIRS, PLACE, RECORD, RECORDS, REPLAY, REPORT, RULES, SESSION, SMALLER, STANDING, STEPS, STEPS_AT, TABLE, TEXT,
    UNPACKED, VERDICT,
};

const BUFFERS: &[u8] = b"0: M[0] := 1\n0: M[1] == 0\n1: M[1] := 1\n1: M[0] == 0\n";
/// The packed file of BUFFERS, by hand from document 02.
#[rustfmt::skip]
const PACKED: &[u8] = &[
    0x50, 0x59, 0x52, 1, 0, 0, 4, 0,
    1, 0, 0, 0, 0, 0, 1, 0,
    0, 0, 1, 0, 0, 0, 0, 0,
    1, 1, 1, 0, 0, 0, 1, 0,
    0, 1, 0, 0, 0, 0, 0, 0,
];
const NO_SOURCE: &[u8] = b"0: M[0] := 1\n0: sync\n0: M[0] == 2\n";
const KNOT: &[u8] = include_bytes!("../../../tests/traces/knot.txt");

#[test]
fn the_numbers_of_the_header() {
    let header = include_str!("../../wheelotter.h");
    let number = |name: &str| {
        let line = header.lines().find(|line| line.starts_with(&format!("#define WHEELOTTER_{name} "))).expect("defined");
        line.split_whitespace().nth(2).and_then(|number| number.parse::<usize>().ok()).expect("a number")
    };
    assert_eq!([number("RECORDS"), number("PAIRS"), number("TEXT"), number("REPORT")], [RECORDS, PAIRS, TEXT, REPORT]);
    assert_eq!([number("VERDICT"), number("OPERATIONS"), number("RULES")], [VERDICT, OPERATIONS, RULES]);
    assert_eq!([number("LIMITED"), number("COUNTED")], [LIMITED, COUNTED]);
    assert_eq!([number("HEAD"), number("STANDING"), number("MARK"), number("TABLE")], [HEAD, STANDING, MARK, TABLE]);
    assert_eq!([number("PLACE"), number("STEPS"), number("STEPS_AT"), number("REPLAY")], [PLACE, STEPS, STEPS_AT, REPLAY]);
    assert_eq!([number("OLDS"), number("LEFT"), number("SMALLER")], [OLDS, LEFT, SMALLER]);
    assert_eq!([number("SESSION"), number("FILE"), number("FIRSTS"), number("COUNT")], [SESSION, FILE, FIRSTS, COUNT]);
    assert_eq!([number("ENTRIES"), number("FIRST"), number("RECORD")], [ENTRIES, FIRST, RECORD]);
    assert_eq!([number("BYTES_AT"), number("PACKED"), number("UNPACKED")], [BYTES_AT, PACKED_ROOM, UNPACKED]);
    assert_eq!(["SC", "TSO", "PSO", "WMO"].map(number), MODELS.map(|model| model as usize));
    assert_eq!(number("MODELS"), MODELS.len());
    for answer in (0..=255).filter_map(Answer::numbered) {
        let large = |c: char| if c.is_uppercase() { format!("_{c}") } else { c.to_uppercase().to_string() };
        let name: String = format!("{answer:?}").chars().map(large).collect();
        assert_eq!(number(&name[1..]), answer as usize, "{answer:?}");
    }
}

#[test]
fn texts() {
    assert!(report(BUFFERS).starts_with("SC: no order, circle 0 1 2 3 by 1 4 1 4\nTSO: order 1 2 3 0\n"));
    assert_eq!(report(BUFFERS).lines().count(), MODELS.len());
    assert_eq!(check(BUFFERS), Ok(()));
    assert_eq!(check(b"0: sync\n8: sync\n"), Err(Refusal { answer: Answer::PastBound, line: 2, part: b"8: sync" }));
    assert_eq!(check(&[b'\n'; TEXT + 1]), Err(Refusal { answer: Answer::LongText, line: 0, part: b"" }));
    assert_eq!(check(b"0").map_err(|refusal| refusal.to_string()), Err("refused 3 line 1".to_string()));
}

#[test]
fn packed_files() {
    assert_eq!(pack(BUFFERS).as_deref(), Ok(PACKED));
    assert_eq!(unpack(PACKED).as_deref(), Ok(BUFFERS));
    assert_eq!(unpack(b"PYR\x01\0\0\0\0").as_deref(), Ok(&b""[..]), "the file of no records");
    assert_eq!(pack(b"0: sync\n2: sync\n").map_err(|refusal| refusal.answer), Err(Answer::LostCore));
    let told = |place: usize, byte: u8| {
        let mut file = PACKED.to_vec();
        file[place] = byte;
        let refusal = check_file(&file).expect_err("turned back");
        assert_eq!(unpack(&file), Err(refusal));
        (refusal.answer, refusal.line)
    };
    assert_eq!([told(0, 0), told(6, 3)], [(Answer::NoFile, 0); 2]);
    assert_eq!(told(4, 1), (Answer::OtherVersion, 0));
    assert_eq!(told(ENTRIES + RECORD, 4), (Answer::NoEntry, 2));
    assert_eq!(told(ENTRIES + 2, 16), (Answer::PastBound, 1));
    assert_eq!(told(ENTRIES + 6, 0), (Answer::FirstWritten, 1));
    assert_eq!(told(ENTRIES + 2 * RECORD + 2, 0), (Answer::WrittenBefore, 3));
    let one: Vec<u8> = PACKED.iter().enumerate().map(|(i, &byte)| if i % RECORD == 1 && i > ENTRIES { 1 } else { byte }).collect();
    assert_eq!(check_file(&one), Err(FileRefusal { answer: Answer::LostCore, line: 0 }));
    let mut short = [7; 2 + 39];
    assert_eq!((entries::pack(BUFFERS, &mut short), short), (Answer::NoRoom as u8, [7; 2 + 39]));
}

#[test]
fn judgements() {
    let judged = |model, list: &[u16]| judge(BUFFERS, model, list).expect("a good text");
    assert_eq!(judged(Model::Tso, &[1, 2, 3, 0]), Judgement::Valid);
    assert_eq!(judged(Model::Sc, &[1, 2, 3, 0]), Judgement::OutOfTurn(0, 1));
    assert_eq!(judged(Model::Sc, &[1, 2, 3]), Judgement::WrongLength);
    assert_eq!(judged(Model::Sc, &[1, 2, 256, 4]), Judgement::BadNumber(2));
    assert_eq!(judged(Model::Sc, &[3, 2, 3, 2]), Judgement::Repeat(2));
    assert_eq!(judged(Model::Tso, &[0, 1, 2, 3]), Judgement::WrongValue(3));
    assert_eq!(judge(b"\n", Model::Sc, &[]).map_err(|refusal| refusal.answer), Err(Answer::NoForm));
    assert_eq!(entries::judge(BUFFERS, 1, &[], &mut [0; JUDGEMENT - 1]), Answer::NoRoom as u8);
}

/// The circle of the first trace in five entries; no number of it is for show.
#[test]
fn papers() {
    let list = [1, 0, 1, 0, 4, 1, 2, 0, 1, 2, 3, 0, 4, 3, 0, 0, 0, 0, 0, 4, 0, 1, 2, 3];
    assert_eq!(accepts(BUFFERS, Model::Sc, &list), Ok(true));
    assert_eq!(accepts(BUFFERS, Model::Tso, &list), Ok(false));
    assert_eq!(accepts(BUFFERS, Model::Sc, &list[1..]), Ok(false));
    assert_eq!(accepts(BUFFERS, Model::Sc, &[]), Ok(false));
    assert_eq!(accepts(b"\n", Model::Sc, &list).map_err(|refusal| refusal.answer), Err(Answer::NoForm));
    assert_eq!(entries::accepts(BUFFERS, 0, &list), Answer::NoModel as u8);
}

/// The writer's list for the same trace is this very list; room for one number less is too little, and then nothing is written.
#[test]
fn papers_written() {
    let list = [1, 0, 1, 0, 4, 1, 2, 0, 1, 2, 3, 0, 4, 3, 0, 0, 0, 0, 0, 4, 0, 1, 2, 3];
    assert_eq!(paper(BUFFERS, Model::Sc, list.len()), Ok(Paper::Shown(list.to_vec())));
    assert_eq!(paper(BUFFERS, Model::Sc, list.len() - 1), Ok(Paper::TooLong));
    assert_eq!(paper(BUFFERS, Model::Tso, 100), Ok(Paper::Nothing));
    assert_eq!(paper(b"0: M[1] == 5\n", Model::Sc, 100), Ok(Paper::Nothing));
    assert_eq!(paper(b"\n", Model::Sc, 100).map_err(|refusal| refusal.answer), Err(Answer::NoForm));
    let mut out = [7; LIST + 23];
    assert_eq!(entries::paper(BUFFERS, 1, &mut out), Answer::NoRoom as u8);
    assert_eq!(entries::paper(BUFFERS, 0, &mut out), Answer::NoModel as u8);
    assert_eq!(out, [7; LIST + 23]);
}

/// Two stores into their buffers, two loads from memory: the buffers have to be emptied. Under SC the second load would get 1.
#[test]
fn machine() {
    assert_eq!(run(BUFFERS, Model::Tso, &[0, 0, 1, 1]), Ok(Ran::NotThrough));
    assert_eq!(run(BUFFERS, Model::Tso, &[0, 0, 1, 1, 8, 9]), Ok(Ran::Through));
    assert_eq!(run(BUFFERS, Model::Tso, &[0, 0, 1, 1, 8, 9, 8]), Ok(Ran::Stuck(6)));
    assert_eq!(run(BUFFERS, Model::Sc, &[0, 0, 1, 1]), Ok(Ran::Stuck(3)));
    assert_eq!(run(BUFFERS, Model::Sc, &[16]), Ok(Ran::Stuck(0)));
    assert_eq!(run(BUFFERS, Model::Pso, &[]), Err(Answer::NoModel));
    assert_eq!(run(b"\n", Model::Wmo, &[]), Err(Answer::NoForm));
    assert_eq!(entries::run(BUFFERS, 1, &[16], &mut [0; PLACE - 1]), Answer::NoRoom as u8);
    let found = steps(BUFFERS, Model::Tso, &[1, 2, 3, 0]).expect("a valid order");
    assert_eq!(found, [0, 0, 1, 9, 1, 8]);
    assert_eq!(run(BUFFERS, Model::Tso, &found), Ok(Ran::Through));
    assert_eq!(steps(BUFFERS, Model::Sc, &[1, 2, 3, 0]), Err(Answer::NoOrder));
    assert_eq!(steps(b"0: sync\n", Model::Sc, &[]), Ok(vec![0]));
    assert_eq!(entries::steps(BUFFERS, 2, &[], &mut [0; REPLAY - 1]), Answer::NoRoom as u8);
}

#[test]
fn limits() {
    // 11 steps: worked out by hand, and the plain search's definition computes it.
    let order = Verdict::Order(vec![1, 2, 3, 0]);
    assert_eq!(limited(BUFFERS, Model::Tso, 11), Ok(Limited::Decided(order.clone(), 11)));
    assert_eq!(limited(BUFFERS, Model::Tso, u64::MAX), Ok(Limited::Decided(order, 11)));
    assert_eq!(limited(BUFFERS, Model::Tso, 10), Ok(Limited::Undecided));
    assert_eq!(limited(BUFFERS, Model::Tso, 0), Ok(Limited::Undecided));
    let circle = verdict(BUFFERS, Model::Sc).expect("a good text");
    assert_eq!(limited(BUFFERS, Model::Sc, 0), Ok(Limited::Decided(circle, 0)));
    assert_eq!(limited(NO_SOURCE, Model::Wmo, 0), Ok(Limited::Decided(Verdict::NoSource(2), 0)));
    assert_eq!(limited(b"", Model::Sc, 0), Ok(Limited::Decided(Verdict::Order(vec![]), 0)));
    assert_eq!(limited(b"\n", Model::Sc, 0).map_err(|refusal| refusal.answer), Err(Answer::NoForm));
    for (model, steps) in [(Model::Sc, 1_006_638), (Model::Tso, 1_929_410)] {
        assert_eq!(limited(KNOT, model, steps), Ok(Limited::Decided(Verdict::NoneLeft, steps)));
        assert_eq!(limited(KNOT, model, steps - 1), Ok(Limited::Undecided));
    }
    let mut out = [1; LIMITED];
    assert_eq!(entries::limited(BUFFERS, 2, 10, &mut out), Answer::Undecided as u8);
    assert_eq!(out[..COUNTED], [0; VERDICT]);
    assert_eq!(out[COUNTED..], 10u64.to_le_bytes());
    assert_eq!(entries::limited(BUFFERS, 1, 0, &mut [0; LIMITED - 1]), Answer::NoRoom as u8);
    assert_eq!(entries::limited(BUFFERS, 5, 0, &mut []), Answer::NoModel as u8);
}

/// A store that nobody needs, a fence and a load of another address go; the two cores of BUFFERS stay, with their old numbers. Of the loads that read
/// from a swap, and of what read from those in turn, none stays behind.
#[test]
fn smaller_traces() {
    let padded = b"init: M[5] := 9\n0: M[5] == 9\n0: M[0] := 1\n0: sync\n0: M[1] == 0\n1: { M[5] == 9; M[5] := 7 }\n1: M[1] := 1\n1: M[0] == 0\n0: M[5] == 7\n";
    let left = b"init: M[5] := 9\n0: M[0] := 1\n0: M[1] == 0\n1: M[1] := 1\n1: M[0] == 0\n".to_vec();
    assert_eq!(smaller(padded, Model::Sc), Ok(Smaller::Cut { olds: vec![1, 3, 5, 6], text: left }));
    assert_eq!(smaller(padded, Model::Wmo), Ok(Smaller::NothingWrong));
    assert_eq!(smaller(BUFFERS, Model::Sc), Ok(Smaller::Cut { olds: vec![0, 1, 2, 3], text: BUFFERS.to_vec() }));
    assert_eq!(smaller(NO_SOURCE, Model::Sc), Ok(Smaller::NoSource(2)));
    assert_eq!(smaller(b"\n", Model::Sc).map_err(|refusal| refusal.answer), Err(Answer::NoForm));
    let mut out = vec![7; LEFT + BUFFERS.len() - 1];
    assert_eq!(entries::smaller(BUFFERS, 1, &mut out), Answer::NoRoom as u8);
    assert_eq!(out, vec![7; LEFT + BUFFERS.len() - 1]);
    out.push(7);
    assert_eq!(entries::smaller(BUFFERS, 1, &mut out), Answer::Cut as u8);
    assert_eq!(out[..OLDS + 8], [4, 0, 52, 0, 0, 0, 1, 0, 2, 0, 3, 0]);
    assert_eq!(out[LEFT..], *BUFFERS);
    assert_eq!(entries::smaller(BUFFERS, 5, &mut []), Answer::NoModel as u8);
}

#[test]
fn verdicts() {
    let circle = Verdict::Circle { operations: vec![0, 1, 2, 3], rules: vec![1, 4, 1, 4] };
    assert_eq!(verdict(BUFFERS, Model::Sc), Ok(circle));
    assert_eq!(verdict(BUFFERS, Model::Tso), Ok(Verdict::Order(vec![1, 2, 3, 0])));
    assert_eq!(verdict(NO_SOURCE, Model::Tso), Ok(Verdict::NoSource(2)));
    assert_eq!(verdict(KNOT, Model::Sc), Ok(Verdict::NoneLeft));
    assert_eq!(verdict(b"", Model::Sc), Ok(Verdict::Order(vec![])));
    assert_eq!(verdict(b"\n", Model::Sc).map_err(|refusal| refusal.answer), Err(Answer::NoForm));
}

#[test]
fn sessions() {
    let mut session = Session::open(KNOT, Model::Sc).expect("KNOT opens");
    let fresh = session.clone();
    for (x, y) in [(2, 8), (8, 2)] {
        assert_eq!(session.ask(x, y), Ok(Asked::NotHeld));
        assert_eq!(session.suppose(x, y), Ok(()));
        assert_eq!(session.ask(x, y), Ok(Asked::Contradicted));
        assert_eq!(session.take_back(), Ok(()));
        assert_eq!(session, fresh);
    }
    assert_eq!(session.ask(0, 1), Ok(Asked::Held), "by the core's own order");
    let refused = [session.take_back(), session.suppose(0, 4), session.suppose(3, 3)];
    assert_eq!(refused, [Answer::NoPair, Answer::NoOperation, Answer::SameTwice].map(Err));
    (0..PAIRS).for_each(|_| assert_eq!(session.suppose(0, 1), Ok(())));
    assert_eq!(session.suppose(0, 1), Err(Answer::ManyPairs));
    assert_eq!(Session::open(b"0", Model::Sc), Err(Answer::NoForm));
}

/// Record 2 reads what nobody wrote: it waits until core 1 writes it, which comes then before it (rule 2). A swap of core 1 reads that in turn.
#[test]
fn records_that_come() {
    let mut session = Session::open(NO_SOURCE, Model::Sc).expect("a load that waits forbids nothing");
    assert_eq!(session.waiting(), Ok(Some(2)));
    let store = Record::Store { thread: 1, address: 0, written: 2 };
    assert_eq!(session.suppose(0, 2), Ok(()));
    assert_eq!(session.add(store), Ok(()));
    assert_eq!(session.waiting(), Ok(None));
    assert_eq!([session.ask(3, 2), session.ask(0, 3), session.ask(2, 3)], [Ok(Asked::Held), Ok(Asked::Held), Ok(Asked::NotHeld)]);
    assert_eq!(session.add(Record::Swap { thread: 1, address: 0, read: 2, written: 3 }), Ok(()));
    assert_eq!(session.add(Record::Fence { thread: 7 }), Ok(()), "no core need be there before a higher one");
    assert_eq!(session.add(Record::Load { thread: 0, address: 5, read: 9 }), Ok(()));
    assert_eq!(session.waiting(), Ok(Some(6)));
    let text = b"0: M[0] := 1\n0: sync\n0: M[0] == 2\n1: M[0] := 2\n1: { M[0] == 2; M[0] := 3 }\n";
    let mut whole = Session::open(text, Model::Sc).expect("opens");
    assert_eq!(whole.suppose(0, 2), Ok(()));
    assert_eq!([whole.add(Record::Fence { thread: 7 }), whole.add(Record::Load { thread: 0, address: 5, read: 9 })], [Ok(()); 2]);
    assert_eq!(session, whole);
    let before = session.clone();
    let refused =
        [store, Record::Store { thread: 1, address: 0, written: 0 }, Record::Fence { thread: 8 }].map(|record| session.add(record));
    assert_eq!(refused, [Answer::WrittenBefore, Answer::FirstWritten, Answer::PastBound].map(Err));
    assert_eq!(session, before);
    assert_eq!(session.take_back(), Ok(()));
    assert_eq!(session.as_bytes().len(), before.as_bytes().len(), "taking back leaves the records");
    let mut bytes = [before.as_bytes(), &[7; RECORD]].concat();
    assert_eq!(entries::add(&mut bytes, 4, 0, 0, 0, 0), Answer::NoEntry as u8);
    assert_eq!(entries::add(&mut bytes, 1, 0, 0, 1, 5), Answer::NoEntry as u8, "a store reads nothing");
    assert_eq!(entries::add(&mut bytes[1..], 3, 0, 0, 0, 0), Answer::NoSession as u8);
    assert_eq!(bytes, [before.as_bytes(), &[7; RECORD]].concat());
}

/// A packed file opens the session that its text does. The file that a session keeps may have lost a core while records come: by its bytes the session
/// goes on, by that file alone it is turned back.
#[test]
fn sessions_from_files() {
    let opened = Session::open_file(PACKED, Model::Tso).expect("opens");
    assert_eq!(opened, Session::open(BUFFERS, Model::Tso).expect("opens"));
    let mut session = opened.clone();
    assert_eq!(session.add(Record::Fence { thread: 3 }), Ok(()));
    assert_eq!(Session::open_file(&session.as_bytes()[HEAD..], Model::Tso), Err(Answer::LostCore));
    assert_eq!(Session::from(session.as_bytes().to_vec()).ask(1, 2), Ok(Asked::Held));
    assert_eq!(session.add(Record::Fence { thread: 2 }), Ok(()));
    assert_eq!(Session::open_file(&session.as_bytes()[HEAD..], Model::Tso), Ok(session));
    assert_eq!(Session::open_file(&PACKED[1..], Model::Tso), Err(Answer::NoFile));
    let mut lent = [7; SESSION];
    assert_eq!(entries::open_file(PACKED, 0, &mut lent), Answer::NoModel as u8);
    let empty = Session::open(b"", Model::Sc).expect("opens");
    assert_eq!(lent[..HEAD + ENTRIES], *empty.as_bytes());
    assert!(lent[HEAD + ENTRIES..].iter().all(|&byte| byte == 7));
    assert_eq!(entries::open_file(PACKED, 2, &mut [0; HEAD]), Answer::NoRoom as u8);
    assert_eq!(entries::open_file(&PACKED[..9], 9, &mut []), Answer::NoFile as u8, "what is wrong with the file comes first");
}

#[test]
fn bytes_from_anywhere() {
    let session = Session::open(BUFFERS, Model::Tso).expect("opens");
    assert_eq!(session.as_bytes().len(), HEAD + PACKED.len());
    let mut bytes = session.as_bytes().to_vec();
    assert_eq!(Session::from(bytes.clone()).ask(1, 2), Ok(Asked::Held));
    bytes[MARK] = 1;
    let mut forged = Session::from(bytes.clone());
    assert_eq!(forged.ask(1, 2), Err(Answer::NoSession));
    assert_eq!([forged.suppose(0, 1), forged.take_back()], [Err(Answer::NoSession); 2]);
    assert_eq!(forged.as_bytes(), bytes);
    assert_eq!(Session::from(vec![]).ask(0, 1), Err(Answer::NoSession));
    let no_model = MODELS.len() as u8 + 1;
    assert_eq!(entries::open(BUFFERS, 2, &mut bytes[1..]), Answer::NoRoom as u8);
    assert_eq!(entries::open(BUFFERS, no_model, &mut []), Answer::NoModel as u8, "what is wrong with the input comes first");
    assert_eq!(entries::verdict(BUFFERS, no_model, &mut [0; VERDICT]), Answer::NoModel as u8);
    assert_eq!(entries::verdict(b"0", no_model, &mut []), Answer::NoForm as u8);
    assert_eq!(entries::verdict(BUFFERS, 1, &mut [0; VERDICT - 1]), Answer::NoRoom as u8);
}

/// The bytes of a session by the places that the header gives them.
#[test]
fn a_session_in_bytes() {
    let mut session = Session::open(BUFFERS, Model::Tso).expect("opens");
    assert_eq!(session.suppose(0, 1), Ok(()));
    let bytes = session.as_bytes();
    assert_eq!([bytes[0], bytes[1], bytes[MARK]], [2, 1, 0]);
    assert_eq!(bytes[STANDING..][..6], [0, 0, 1, 0, 0, 0]);
    for (x, y) in (0..RECORDS).flat_map(|x| (0..RECORDS).map(move |y| (x, y))) {
        let held = x < 4 && y < 4 && x != y && session.ask(x, y) == Ok(Asked::Held);
        assert_eq!(bytes[TABLE + x * (RECORDS / 8) + y / 8] >> (y % 8) & 1 == 1, held, "{x} {y}");
    }
    assert_eq!(session.ask(3, 2), Ok(Asked::Held));
    assert_eq!(&bytes[HEAD..], PACKED);
}
