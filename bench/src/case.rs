//! A trace with all that the entries are asked about it.

use crate::chance::Chance;
use crate::draw::text_of;
use crate::library::Lent;
use simple::session::Session;
use simple::{Bools, Model, Record, Words};
use wheelotter::{entries, Answer, COUNT, ENTRIES, FIRST, FIRSTS, HEAD, OPERATIONS, PAIRS, PLACE, RECORD, SESSION};

pub struct Case {
    pub text: Vec<u8>,
    pub model: Model,
    /// What the judge is asked about: the first order, or where there is none the operations as the text has them, which keeps every pair. So the
    /// judge has to look at the values too.
    pub list: Vec<u16>,
    pub supposed: Vec<(usize, usize)>,
    /// Of the text with all these pairs supposed; empty where a load waits for its source: the simple program has no such sessions.
    pub session: Vec<u8>,
    /// Two operations to suppose and to ask about.
    pub pair: (usize, usize),
    pub simple: Option<Sessions>,
}

/// The same session, written simply.
pub struct Sessions {
    pub bools: Session<Bools>,
    pub words: Session<Words>,
}

impl Case {
    pub fn of(chance: &mut Chance, trace: &[Record], model: Model) -> Case {
        let text = text_of(trace);
        let mut lent = Lent::new();
        let order = entries::verdict(&text, model as u8, &mut lent.out) == Answer::Order as u8;
        let operations: Vec<u16> = (0..trace.len()).filter(|&x| !trace[x].is_fence()).map(|x| x as u16).collect();
        let named = |i: usize| u16::from_le_bytes([lent.out[OPERATIONS + 2 * i], lent.out[OPERATIONS + 2 * i + 1]]);
        let list = if order { (0..operations.len()).map(named).collect() } else { operations };
        let supposed = (0..chance.between(1, PAIRS - 1)).map(|_| two(chance, &list, order)).collect();
        let pair = two(chance, &list, false);
        let mut case = Case { text, model, list, supposed, session: Vec::new(), pair, simple: None };
        case.session = case.supposing();
        case
    }

    /// A session of the library, opened on the text, with all pairs supposed.
    fn supposing(&self) -> Vec<u8> {
        let mut session = vec![0; SESSION];
        if entries::open(&self.text, self.model as u8, &mut session) != Answer::Done as u8 {
            return Vec::new();
        }
        session.truncate(HEAD + file_length(&session[HEAD..]));
        if entries::waiting(&session, &mut [0; PLACE]) != Answer::Done as u8 {
            return Vec::new();
        }
        for &(x, y) in &self.supposed {
            assert!(entries::suppose(&mut session, x, y) == Answer::Done as u8, "a pair of two operations can be supposed");
        }
        session
    }

    /// The case with the sessions written simply.
    pub fn with_simple(mut self) -> Case {
        let bools = Session::with(&self.text, self.model, &self.supposed);
        let words = Session::with(&self.text, self.model, &self.supposed);
        self.simple = bools.ok().zip(words.ok()).map(|(bools, words)| Sessions { bools, words });
        self
    }
}

/// Two different operations of a list, if need be as they follow each other there: pairs that an order keeps contradict nothing, so that there is
/// something to close.
fn two(chance: &mut Chance, list: &[u16], following: bool) -> (usize, usize) {
    let (i, other) = (chance.below(list.len()), chance.below(list.len() - 1));
    let j = if other < i { other } else { other + 1 };
    let (i, j) = if following { (i.min(j), i.max(j)) } else { (i, j) };
    (usize::from(list[i]), usize::from(list[j]))
}

/// How long a packed file says it is: a session's bytes end with it.
fn file_length(file: &[u8]) -> usize {
    let records = u16::from_le_bytes([file[COUNT], file[COUNT + 1]]);
    ENTRIES + FIRST * usize::from(file[FIRSTS]) + RECORD * usize::from(records)
}
