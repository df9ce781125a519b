//! Records added to a session, as document 02 says it.

use second::chance::Chance;
use second::reader;
use second::session::{add, ask, open, suppose, take_back, waiting, Answer, Session, Talk};
use second::trace::{Record, Trace, MODELS, MOST_RECORDS};

fn trace(text: &str) -> Trace {
    reader::read(text.as_bytes()).expect("a good text")
}

fn load(thread: u64, address: u64, read: u64) -> Record {
    Record::Load { thread, address, read }
}

fn store(thread: u64, address: u64, written: u64) -> Record {
    Record::Store { thread, address, written }
}

/// A load waits, and holds nothing on its account, until its source comes; rules 2 and 3 hold then.
#[test]
fn a_load_waits_for_its_source() {
    let session = open(&trace("0: M[0] := 1\n0: M[0] == 2\n"), 1).expect("opens");
    assert_eq!(waiting(&session), Ok(Some(1)));
    assert_eq!(ask(&session, 0, 1), Ok(Answer::Held), "by program order");
    let session = add(&session, store(1, 0, 2)).expect("a good record");
    assert_eq!(waiting(&session), Ok(None));
    assert_eq!([ask(&session, 2, 1), ask(&session, 0, 2), ask(&session, 1, 2)], [Ok(Answer::Held), Ok(Answer::Held), Ok(Answer::NotHeld)]);
}

/// The lowest number comes, and the session as it was given; 12 comes before all.
#[test]
fn records_turned_back() {
    let session = open(&trace("init: M[3] := 7\n0: M[3] := 1\n"), 2).expect("opens");
    let cases =
        [(store(8, 3, 7), 4), (store(0, 16, 0), 4), (load(0, 0, 65536), 4), (store(1, 3, 7), 6), (store(1, 0, 0), 6), (store(1, 3, 1), 8)];
    for (record, number) in cases {
        assert_eq!(add(&session, record), Err((number, session.clone())));
        let forged = Session { contradicted: true, ..session.clone() };
        assert_eq!(add(&forged, record), Err((12, forged.clone())));
    }
    let full: Vec<Record> = (0..MOST_RECORDS as u64).map(|x| store(x % 8, 3, x + 100)).collect();
    let full = open(&Trace::with(session.trace.firsts, &full), 4).expect("opens");
    for (record, number) in [(Record::Fence { thread: 0 }, 7), (store(0, 3, 100), 7), (store(0, 3, 7), 6), (store(9, 3, 100), 4)] {
        assert_eq!(add(&full, record), Err((number, full.clone())));
    }
}

/// After any calls a session equals the one opened afresh on all its records, with the pairs that stand; a talk answers as the plain functions do.
#[test]
fn any_mixture_equals_a_fresh_session() {
    for case in 0..60 {
        let mut chance = Chance::new(case);
        let model = chance.between(1, MODELS) as u64;
        let mut session = open(&Trace::empty(), model).expect("opens");
        let mut talk = Talk::open(&Trace::empty(), model).expect("opens");
        for _ in 0..chance.between(5, 40) {
            let [x, y] = [0; 2].map(|_| chance.below(session.trace.count + 2));
            let thread = chance.below(9) as u64;
            let (address, value) = (chance.below(3) as u64, chance.below(7) as u64);
            let record = *chance.of(&[load(thread, address, value), store(thread, address, value), Record::Fence { thread }]);
            let (next, told) = match chance.below(8) {
                0 | 1 => (suppose(&session, x, y), talk.suppose(x, y)),
                2 => (take_back(&session), talk.take_back()),
                _ => (add(&session, record), talk.add(record)),
            };
            assert_eq!(next.as_ref().map(|_| ()).map_err(|(number, _)| *number), told);
            session = next.unwrap_or_else(|(_, given)| given);
            assert_eq!(talk.session(), &session);
            assert_eq!(waiting(&session), Ok(talk.waiting()));
            let fresh = open(&session.trace, model).expect("opens");
            let again = session.pairs.iter().try_fold(fresh, |fresh, &(x, y)| suppose(&fresh, x, y)).expect("the pairs may stand");
            assert_eq!(session, again);
        }
    }
}
