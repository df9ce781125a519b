//! Every entry of the library as a call on a case, with its counterparts written simply where it has any. A further entry is a line of CALLS.

use crate::case::Case;
use crate::library::Lent;
use crate::measure::LIMIT;
use simple::judge::judge;
use simple::session::Session;
use simple::{reader, verdict, Bools, Record, Table, Words};
use std::hint::black_box;
use wheelotter::entries;

pub struct Call {
    pub name: &'static str,
    /// It is asked of a session.
    pub session: bool,
    pub library: fn(&Case, &mut Lent),
    /// With tables of bools, and by rows.
    pub simple: Option<[fn(&Case); 2]>,
}

/// The whole answer has no counterpart, since the plain search would have to end under every model. Nor has where a bad line starts and ends.
#[rustfmt::skip]
pub static CALLS: [Call; 12] = [
    Call { name: "report", session: false, library: |case, lent| keep(entries::report(&case.text, &mut lent.out)), simple: None },
    Call { name: "number", session: false, library: |case, _| keep(entries::number(&case.text)), simple: Some([read, read]) },
    Call { name: "line", session: false, library: |case, _| keep(entries::line(&case.text)), simple: Some([read, read]) },
    Call { name: "start", session: false, library: |case, _| keep(entries::start(&case.text)), simple: None },
    Call { name: "end", session: false, library: |case, _| keep(entries::end(&case.text)), simple: None },
    Call { name: "verdict", session: false, library: told_by_library, simple: Some([told::<Bools>, told::<Words>]) },
    Call { name: "limited", session: false, library: limited_by_library, simple: None },
    Call { name: "judge", session: false, library: judged_by_library, simple: Some([judged::<Bools>, judged::<Words>]) },
    Call { name: "open", session: false, library: opened_by_library, simple: Some([opened::<Bools>, opened::<Words>]) },
    Call { name: "suppose", session: true, library: supposed_by_library, simple: Some([supposed::<Bools>, supposed::<Words>]) },
    Call { name: "take_back", session: true, library: |_, lent| keep(entries::take_back(&mut lent.session)), simple: Some([taken::<Bools>, taken::<Words>]) },
    Call { name: "ask", session: true, library: |case, lent| keep(entries::ask(&lent.session, case.pair.0, case.pair.1)), simple: Some([asked::<Bools>, asked::<Words>]) },
];

/// Where the verdict stands among them.
pub fn the_verdict() -> usize {
    CALLS.iter().position(|call| call.name == "verdict").expect("the verdict is an entry")
}

impl Call {
    /// No session is timed on a trace with a missing source.
    pub fn applies(&self, case: &Case) -> bool {
        !(self.session && case.session.is_empty())
    }
}

/// What comes back is looked at by nobody, and is worked out all the same.
fn keep<T>(back: T) {
    black_box(back);
}

fn told_by_library(case: &Case, lent: &mut Lent) {
    keep(entries::verdict(&case.text, case.model as u8, &mut lent.out));
}

/// Within a million steps; a simple counterpart without a memory would take seconds.
fn limited_by_library(case: &Case, lent: &mut Lent) {
    keep(entries::limited(&case.text, case.model as u8, LIMIT, &mut lent.out));
}

fn judged_by_library(case: &Case, lent: &mut Lent) {
    keep(entries::judge(&case.text, case.model as u8, &case.list, &mut lent.out));
}

fn opened_by_library(case: &Case, lent: &mut Lent) {
    keep(entries::open(&case.text, case.model as u8, &mut lent.session));
}

fn supposed_by_library(case: &Case, lent: &mut Lent) {
    keep(entries::suppose(&mut lent.session, case.pair.0, case.pair.1));
}

fn records(case: &Case) -> Vec<Record> {
    reader::read(&case.text, 256).expect("what is drawn is good")
}

fn read(case: &Case) {
    keep(records(case));
}

fn told<T: Table>(case: &Case) {
    keep(verdict::<T>(&records(case), case.model, LIMIT));
}

fn judged<T: Table>(case: &Case) {
    let list: Vec<usize> = case.list.iter().map(|&x| usize::from(x)).collect();
    keep(judge::<T>(&records(case), case.model, &list));
}

fn opened<T: Table>(case: &Case) {
    keep(Session::<T>::open(&case.text, case.model));
}

fn supposed<T: Talks>(case: &Case) {
    keep(T::session(case).suppose(case.pair.0, case.pair.1));
}

fn taken<T: Talks>(case: &Case) {
    keep(T::session(case).take_back());
}

fn asked<T: Talks>(case: &Case) {
    keep(T::session(case).ask(case.pair.0, case.pair.1));
}

/// A table that a case has a session with.
trait Talks: Table {
    fn session(case: &Case) -> &Session<Self>;
}

impl Talks for Bools {
    fn session(case: &Case) -> &Session<Bools> {
        &case.simple.as_ref().expect("the case has a session").bools
    }
}

impl Talks for Words {
    fn session(case: &Case) -> &Session<Words> {
        &case.simple.as_ref().expect("the case has a session").words
    }
}
