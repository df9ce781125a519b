//! The proved library, by its entries over bytes; and what it has room for, found by asking it.

use crate::case::Case;
use simple::models::{Model, MODELS};
use wheelotter::{entries, SESSION};

/// More than any answer takes.
const ROOM: usize = 1 << 14;

/// Memory lent to the library.
pub struct Lent {
    pub out: Vec<u8>,
    pub session: Vec<u8>,
}

impl Lent {
    pub fn new() -> Lent {
        Lent { out: vec![0; ROOM], session: Vec::new() }
    }

    /// The session as it stands before a call on a case, which may change it; where there is none, room for any.
    pub fn ready_for(&mut self, case: &Case) {
        self.session.clone_from(&case.session);
        if case.session.is_empty() {
            self.session.resize(SESSION, 0);
        }
    }
}

/// The printed lines of the whole answer to a text.
pub fn lines(text: &[u8]) -> Vec<String> {
    let mut out = [0; ROOM];
    let length = entries::report(text, &mut out);
    String::from_utf8_lossy(&out[..length]).lines().map(str::to_string).collect()
}

/// The models that it has: a line for each in its answer to the empty text.
pub fn models() -> Vec<Model> {
    MODELS[..lines(b"").len()].to_vec()
}

/// The largest power of two of records, from 64 on, that it reads.
pub fn most_records() -> usize {
    let reads = |records: usize| !lines(b"0: sync\n".repeat(records).as_slice())[0].starts_with("refused");
    let mut most = 64;
    while reads(2 * most) {
        most *= 2;
    }
    most
}
