//! The entries of the library in bytes, worked out by hand from the document and from the form of the bytes.

use second::chance::Chance;
use second::desk::{ask, head_of, place_of, suppose, take_back, taken, told, Page, DONE, HEAD, VERDICT};
use second::families::{family, text, FAMILIES};
use second::packed::{file_of, HEADER};
use second::reader::MOST_TEXT;
use second::session::{self, Answer, Talk};
use second::stated::{KNOT, STATED};
use second::trace::{MODELS, MOST_RECORDS};
use second::verdict::MOST_STEPS;
use std::collections::BTreeSet;

const BUFFERS: &str = "0: M[0] := 1\n0: M[1] == 0\n1: M[1] := 1\n1: M[0] == 0\n";

/// What lent memory holds beforehand, so that bytes that stay can be told.
const BEFORE: u8 = 77;

fn page(text: &str) -> Page<'_> {
    Page::new(text.as_bytes(), MOST_STEPS)
}

/// The answer, the operations, the rules, and whether all other bytes are as they should be.
fn verdict_in(text: &str, model: u8, room: usize) -> (u8, Vec<usize>, Vec<u8>, bool) {
    let mut lent = vec![BEFORE; room];
    let answer = page(text).verdict(model, &mut lent).expect("known");
    if answer < 64 && answer != 11 {
        return (answer, vec![], vec![], lent == vec![BEFORE; room]);
    }
    let (front, rest) = lent.split_at(VERDICT);
    let number = |place: usize| usize::from(front[place]) + 256 * usize::from(front[place + 1]);
    let named = number(0);
    let (operations, rules) = front[2..].split_at(2 * MOST_RECORDS);
    let rules_named = if answer == 65 { named } else { 0 };
    let unused = operations[2 * named..].iter().chain(&rules[rules_named..]).all(|&byte| byte == 0);
    let stays = rest.iter().all(|&byte| byte == BEFORE);
    (answer, (0..named).map(|i| number(2 + 2 * i)).collect(), rules[..rules_named].to_vec(), unused && stays)
}

#[test]
fn a_verdict_in_bytes() {
    assert_eq!(VERDICT, 2 + 3 * MOST_RECORDS);
    for room in [VERDICT, VERDICT + 1, VERDICT + 71] {
        assert_eq!(verdict_in(BUFFERS, 1, room), (65, vec![0, 1, 2, 3], vec![1, 4, 1, 4], true));
        assert_eq!(verdict_in(BUFFERS, 2, room), (64, vec![1, 2, 3, 0], vec![], true));
        assert_eq!(verdict_in(KNOT, 2, room), (66, vec![], vec![], true));
        assert_eq!(verdict_in("0: M[0] := 1\n0: sync\n0: M[0] == 2\n", 1, room), (11, vec![2], vec![], true));
        assert_eq!(verdict_in("", 2, room), (64, vec![], vec![], true));
    }
    for room in [0, 1, VERDICT - 1, VERDICT, VERDICT + 9] {
        assert_eq!(verdict_in(BUFFERS, 0, room), (9, vec![], vec![], true));
        assert_eq!(verdict_in(BUFFERS, 255, room), (9, vec![], vec![], true));
        assert_eq!(verdict_in("0: syn\n", 255, room), (3, vec![], vec![], true), "a refused text is told before a bad model");
        assert_eq!(verdict_in("1: sync\n", 255, room), (22, vec![], vec![], true));
    }
    for room in [0, 1, VERDICT - 1] {
        assert_eq!(verdict_in(BUFFERS, 1, room), (21, vec![], vec![], true), "room is asked for last");
    }
}

#[test]
fn a_report_in_bytes() {
    let wanted = STATED.iter().find(|stated| stated.text == BUFFERS).expect("stated").output().into_bytes();
    for (room, length) in [(wanted.len() - 1, 0), (wanted.len(), wanted.len()), (wanted.len() + 1000, wanted.len()), (0, 0)] {
        let mut lent = vec![BEFORE; room];
        assert_eq!(page(BUFFERS).report(&mut lent), length);
        assert_eq!(lent[..length], wanted[..length]);
        assert!(lent[length..].iter().all(|&byte| byte == BEFORE));
    }
}

#[test]
fn where_the_bad_line_lies() {
    let place = |text: &str| {
        let page = page(text);
        (page.number(), page.line(), page.start(), page.end())
    };
    assert_eq!(place(""), (0, 0, 0, 0));
    assert_eq!(place(BUFFERS), (0, 0, 0, 0));
    assert_eq!(place("0: M[0] := 1\n0: M[1] = 0\n"), (3, 2, 13, 24));
    assert_eq!(place("0: M[0] := 1\n0: M[1] == 0"), (3, 2, 13, 25), "no ending line feed");
    assert_eq!(place("0: sync\n\n0: sync\n"), (3, 2, 8, 8), "an empty line lies somewhere too");
    assert_eq!(place("\n"), (3, 1, 0, 0));
    assert_eq!(place(&"\n".repeat(MOST_TEXT + 1)), (1, 0, 0, 0));
    assert_eq!(place(&"8".repeat(81)), (2, 1, 0, 81));
    assert_eq!(place("init: M[3] := 7\ninit: M[15] := 0\n"), (0, 0, 0, 0));
    assert_eq!(place("init: M[3] := 7\n0: sync\ninit: M[4] := 7\n"), (17, 3, 24, 39));
    assert_eq!(place("init: M[3] := 7\n0: M[3] := 7\n"), (6, 2, 16, 28));
    assert_eq!(place("0: sync\n2: sync\n"), (22, 0, 0, 0));
}

#[test]
fn lists_judged() {
    let judged = |text: &str, model, list: &[u16]| page(text).judge(model, list);
    assert!(judged(BUFFERS, 2, &[1, 2, 3, 0]));
    assert!(!judged(BUFFERS, 1, &[1, 2, 3, 0]));
    assert!(!judged(BUFFERS, 255, &[1, 2, 3, 0]));
    assert!(!judged(BUFFERS, 2, &[1, 2, 3, 0, 0]));
    assert!(!judged(BUFFERS, 2, &[1, 2, 3, 255]));
    assert!(!judged(BUFFERS, 2, &[1, 2, 3, 256]), "both bytes count");
    assert!(judged("", 1, &[]));
    assert!(!judged("\n", 1, &[]));
}

#[test]
fn a_judgement_in_bytes() {
    let judged = |text: &str, model, list: &[u16], room: usize| {
        let mut lent = vec![BEFORE; room];
        (page(text).judgement(model, list, &mut lent), lent)
    };
    for (list, answer, bytes) in [
        (&[1, 2, 3, 0][..], 70, [0, 0, 0, 0]),
        (&[1, 2, 3], 71, [0, 0, 0, 0]),
        (&[1, 2, 3, 256], 72, [3, 0, 0, 0]),
        (&[1, 3, 3, 1], 73, [1, 0, 0, 0]),
        (&[1, 0, 2, 3], 75, [3, 0, 0, 0]),
    ] {
        assert_eq!(judged(BUFFERS, 2, list, 6), (answer, [&bytes[..], &[BEFORE; 2]].concat()), "{list:?}");
        assert_eq!(judged(BUFFERS, 2, list, 4), (answer, bytes.to_vec()), "{list:?}");
        assert_eq!(judged(BUFFERS, 2, list, 3), (21, vec![BEFORE; 3]), "{list:?}");
    }
    assert_eq!(judged(BUFFERS, 1, &[1, 2, 3, 0], 4), (74, vec![0, 0, 1, 0]));
    assert_eq!(judged(BUFFERS, 1, &[0, 1, 3, 2], 4), (74, vec![2, 0, 3, 0]));
    for room in [0, 3, 4, 9] {
        assert_eq!(judged("0: syn\n", 255, &[], room), (3, vec![BEFORE; room]));
        assert_eq!(judged(BUFFERS, 255, &[], room), (9, vec![BEFORE; room]));
    }
    assert_eq!(judged("", 1, &[], 4), (70, vec![0; 4]));
}

/// The packed file of the store buffers.
const FILE: [u8; 40] = [
    0x50, 0x59, 0x52, 1, 0, 0, 4, 0, //
    1, 0, 0, 0, 0, 0, 1, 0, //
    0, 0, 1, 0, 0, 0, 0, 0, //
    1, 1, 1, 0, 0, 0, 1, 0, //
    0, 1, 0, 0, 0, 0, 0, 0, //
];

/// A session on the store buffers under TSO, as it is opened.
fn opened() -> Vec<u8> {
    let mut lent = vec![BEFORE; HEAD + FILE.len()];
    assert_eq!(page(BUFFERS).open(2, &mut lent).0, 0);
    lent
}

/// Model, count, the pairs that stand, contradicted, what is held.
type Told = (u8, u8, Vec<(usize, usize)>, u8, Vec<(usize, usize)>);

/// All of a head, byte for byte by its places; whatever lies elsewhere and is not 0 fails.
fn told_head(bytes: &[u8]) -> Told {
    let count = usize::from(bytes[1]);
    let number = |place: usize| usize::from(bytes[place]) + 256 * usize::from(bytes[place + 1]);
    let pairs = (0..count).map(|i| (number(2 + 4 * i), number(4 + 4 * i))).collect();
    assert!(bytes[2 + 4 * count..66].iter().all(|&byte| byte == 0));
    let row = MOST_RECORDS / 8;
    let all = (0..MOST_RECORDS).flat_map(|x| (0..MOST_RECORDS).map(move |y| (x, y)));
    let held = all.filter(|(x, y)| bytes[67 + x * row + y / 8] >> (y % 8) & 1 == 1).collect();
    (bytes[0], bytes[1], pairs, bytes[66], held)
}

#[test]
fn a_session_in_bytes() {
    let last = MOST_RECORDS - 1;
    assert_eq!(HEAD, 67 + MOST_RECORDS * MOST_RECORDS / 8);
    assert_eq!([place_of((0, 0)), place_of((0, 9)), place_of((last, last))], [(67, 1), (68, 2), (HEAD - 1, 128)]);
    let mut lent = opened();
    let fresh = lent.clone();
    assert_eq!(lent[HEAD..], FILE);
    assert_eq!(told_head(&lent), (2, 0, vec![], 0, vec![(1, 2), (3, 0)]));
    assert_eq!(ask(&lent, 3, 2), 68);
    assert_eq!(suppose(&mut lent, 0, 1), 0);
    let held = vec![(0, 1), (0, 2), (1, 2), (3, 0), (3, 1), (3, 2)];
    assert_eq!(told_head(&lent), (2, 1, vec![(0, 1)], 0, held));
    assert_eq!(ask(&lent, 3, 2), 67);
    let first = lent.clone();
    assert_eq!(suppose(&mut lent, 2, 3), 0);
    assert_eq!(told_head(&lent), (2, 2, vec![(0, 1), (2, 3)], 1, vec![]));
    assert_eq!(ask(&lent, 3, 2), 69);
    assert_eq!(take_back(&mut lent), 0);
    assert_eq!(lent, first);
    assert_eq!(take_back(&mut lent), 0);
    assert_eq!(lent, fresh);
    assert_eq!(
        [take_back(&mut lent), suppose(&mut lent, 0, 4), suppose(&mut lent, 1, 1), ask(&lent, 65_536, 1), ask(&lent, 2, 2)],
        [16, 13, 14, 13, 14]
    );
    for _ in 0..16 {
        assert_eq!(suppose(&mut lent, 1, 2), 0);
    }
    assert_eq!(suppose(&mut lent, 1, 2), 15);
    assert_eq!(told_head(&lent), (2, 16, vec![(1, 2); 16], 0, vec![(1, 2), (3, 0)]));
}

/// The load reads the first value, which the store overwrites: load before store (rule 4).
#[test]
fn a_session_with_first_values_in_bytes() {
    let text = "init: M[2] := 0\ninit: M[0] := 7\n0: M[0] := 0\n1: M[0] == 7\n";
    let file = [0x50, 0x59, 0x52, 1, 0, 1, 2, 0, 0, 7, 0, 1, 0, 0, 0, 0, 0, 0, 0, 0, 1, 0, 0, 7, 0, 0, 0];
    let mut lent = vec![BEFORE; HEAD + file.len()];
    assert_eq!(page(text).open(1, &mut lent).0, 0);
    assert_eq!(lent[HEAD..], file);
    assert_eq!(told_head(&lent), (1, 0, vec![], 0, vec![(1, 0)]));
    assert_eq!(suppose(&mut lent, 0, 1), 0);
    assert_eq!(told_head(&lent), (1, 1, vec![(0, 1)], 1, vec![]));
    // With another first value the load has no source.
    lent[HEAD + 9] = 8;
    assert_eq!(ask(&lent, 0, 1), 12);
}

#[test]
fn memory_and_openings() {
    let head = std::iter::once(1).chain(std::iter::repeat(0)).take(HEAD);
    let nothing: Vec<u8> = head.chain([0x50, 0x59, 0x52, 1, 0, 0, 0, 0]).collect();
    let length = HEAD + 8;
    for (text, model, answer) in [("0: syn\n", 1, 3), ("0: syn\n", 9, 3), ("1: sync\n", 9, 22), (BUFFERS, 0, 9)] {
        let mut lent = vec![BEFORE; length + 29];
        assert_eq!(page(text).open(model, &mut lent).0, answer);
        assert_eq!(lent[..length], nothing);
        assert!(lent[length..].iter().all(|&byte| byte == BEFORE), "the rest stays");
        assert_eq!([ask(&lent[..length], 0, 1), suppose(&mut lent[..length], 0, 1), take_back(&mut lent[..length])], [13, 13, 16]);
        for room in [0, 1, HEAD - 1, HEAD, length - 1, length] {
            let mut lent = vec![BEFORE; room];
            assert_eq!(page(text).open(model, &mut lent).0, answer, "room is asked for last");
            assert_eq!(lent, if room == length { nothing.clone() } else { vec![BEFORE; room] });
        }
    }
    for room in [0, HEAD, HEAD + 8, HEAD + FILE.len() - 1] {
        let mut lent = vec![BEFORE; room];
        assert_eq!(page(BUFFERS).open(2, &mut lent).0, 21);
        assert_eq!(lent, vec![BEFORE; room]);
    }
    let mut lent = vec![BEFORE; HEAD + FILE.len() + 3];
    assert_eq!(page(BUFFERS).open(2, &mut lent).0, 0);
    assert_eq!(lent, [opened(), vec![BEFORE; 3]].concat());
    assert_eq!(ask(&lent, 0, 1), 12, "what lies behind is left over");
}

#[test]
fn any_other_byte_is_no_session() {
    let mut lent = opened();
    assert_eq!(suppose(&mut lent, 0, 1), 0);
    let mut sessions = BTreeSet::new();
    for place in 0..lent.len() {
        for byte in [0, 1, 2, 3, b'1', b'3', b'7', 64, 255, lent[place] ^ 1, lent[place] ^ 128] {
            let mut other = lent.clone();
            other[place] = byte;
            if other != lent && ask(&other, 3, 2) != 12 {
                sessions.insert((place, byte));
            }
        }
        assert_eq!(ask(&lent[..place], 3, 2), 12, "cut off at {place}");
    }
    // In front of the file only the model may be another, where there is PSO, which keeps no more of this trace than TSO does. All is held along 3, 0, 1,
    // 2, so what forces nothing against this may be otherwise. Each record may be some further thread's, as TSO keeps no pair of this trace; record 2
    // also thread 0's, which keeps 0 before 2 and 1 before 2. The two stores may write other values but the first one, as nobody reads them. Record 0
    // may be a swap of 0: that keeps 0 before 1. Record 2 may not, for it would keep 2 before 3.
    let threads = [9, 17, 25, 33].into_iter().flat_map(|place| [(place, 2), (place, 3)]);
    let low = [14, 30].into_iter().flat_map(|place| [2, 3, b'1', b'3', b'7', 64, 255, 129].map(|byte| (place, byte)));
    let high = [15, 31].into_iter().flat_map(|place| [1, 2, 3, b'1', b'3', b'7', 64, 255, 128].map(|byte| (place, byte)));
    let files = threads.chain(low).chain(high).chain([(25, 0), (8, 2)]).map(|(place, byte)| (HEAD + place, byte));
    assert_eq!(sessions, files.chain((MODELS > 2).then_some((0, 3))).collect());
}

#[test]
fn bytes_that_are_taken_are_laid_down_the_same() {
    let mut chance = Chance::new(3);
    let mut taken_apart = 0;
    for case in 0..3_000 {
        let family = chance.of(FAMILIES);
        let text = text(family, 21, case);
        let page = Page::new(&text, 1);
        let mut lent = vec![0; HEAD + page.trace().map_or(HEADER, |trace| file_of(trace).len())];
        if page.open(chance.between(1, MODELS) as u8, &mut lent).0 != DONE {
            continue;
        }
        for _ in 0..chance.below(4) {
            let place = if chance.percent(50) { chance.below(72) } else { chance.below(lent.len()) };
            lent[place] = chance.below(3) as u8;
        }
        if let Some(session) = taken(&lent) {
            taken_apart += 1;
            assert_eq!([&head_of(&session)[..], &file_of(&session.trace)].concat(), lent);
        }
    }
    assert!(taken_apart > 500, "{taken_apart}");
}

/// A talk answers as the plain functions do, which make everything anew.
#[test]
fn a_talk_and_the_plain_functions_agree() {
    let mut chance = Chance::new(19);
    let mut answers = BTreeSet::new();
    for case in 0..400 {
        let name = *chance.of(&["dense", "weak", "stated", "middle"]);
        let text = text(family(name).expect("a family"), 5, case);
        let page = Page::new(&text, 1);
        let Some(trace) = page.trace() else { continue };
        let model = chance.between(1, MODELS) as u64;
        let (Ok(mut talk), Ok(mut plain)) = (Talk::open(trace, model), session::open(trace, model)) else { continue };
        let supposes = *chance.of(&[40, 90]);
        for _ in 0..22 {
            let (x, y) = (chance.below(trace.count + 1), chance.below(trace.count + 1));
            let (wanted, got) = if chance.percent(supposes) {
                (moved(&mut plain, |session| session::suppose(session, x, y)), talk.suppose(x, y).err().unwrap_or(DONE))
            } else if chance.percent(50) {
                (moved(&mut plain, session::take_back), talk.take_back().err().unwrap_or(DONE))
            } else {
                (session::ask(&plain, x, y).map_or_else(|(number, _)| number, told), talk.ask(x, y).map_or_else(|number| number, told))
            };
            assert_eq!(got, wanted);
            assert_eq!(talk.session(), &plain);
            answers.insert(got);
        }
    }
    assert_eq!(answers, [0, 13, 14, 15, 16, 67, 68, 69].into());
    assert_eq!([Answer::Held, Answer::NotHeld, Answer::Contradicted].map(told), [67, 68, 69]);
}

fn moved(session: &mut session::Session, change: impl Fn(&session::Session) -> Result<session::Session, (u8, session::Session)>) -> u8 {
    match change(session) {
        Ok(next) => {
            *session = next;
            DONE
        }
        Err((number, _)) => number,
    }
}
