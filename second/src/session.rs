//! Sessions as plain values. Every change makes the session anew from its records and its pairs, so taking back can forget nothing and leave
//! nothing, and a source that comes late settles the loads that waited for it.

use crate::rules::{last_round, Pair, Pairs};
use crate::trace::{within_bounds, Model, Record, Trace, MOST_RECORDS};
use crate::verdict::{good, lowest_without_source};

pub use crate::bounds::MOST_PAIRS;

/// The fields are open: a caller may hand in a session that nobody opened, and number 12 has to tell.
/// The document's unused places have no counterpart, since the pairs are a `Vec`.
#[derive(Clone, Debug, PartialEq, Eq)]
pub struct Session {
    pub trace: Trace,
    pub model: u64,
    pub pairs: Vec<Pair>,
    pub contradicted: bool,
    /// Empty while contradicted.
    pub held: Pairs,
}

#[derive(Clone, Copy, Debug, PartialEq, Eq)]
pub enum Answer {
    Held,
    NotHeld,
    Contradicted,
}

/// A refused opening: the number, and the session that comes beside it.
#[derive(Clone, Debug, PartialEq, Eq)]
pub struct NotOpened {
    pub number: u8,
    pub session: Session,
}

/// For 12 to 16, and 4, 6, 7, 8 of a record: the number and the session as it was given.
pub type NotDone = (u8, Session);

pub fn open(trace: &Trace, model: u64) -> Result<Session, NotOpened> {
    let refused = |number| NotOpened { number, session: anew(&Trace::empty(), Model::Sc, 1, &[]) };
    let kind = good(trace, model).map_err(refused)?;
    Ok(anew(trace, kind, model, &[]))
}

pub fn suppose(session: &Session, x: usize, y: usize) -> Result<Session, NotDone> {
    let model = sound(session).and_then(|model| good_pair(&session.trace, x, y).map(|()| model));
    let model = model.map_err(|number| (number, session.clone()))?;
    if session.pairs.len() == MOST_PAIRS {
        return Err((15, session.clone()));
    }
    let mut pairs = session.pairs.clone();
    pairs.push((x, y));
    Ok(anew(&session.trace, model, session.model, &pairs))
}

pub fn take_back(session: &Session) -> Result<Session, NotDone> {
    let model = sound(session).map_err(|number| (number, session.clone()))?;
    match session.pairs.split_last() {
        None => Err((16, session.clone())),
        Some((_, left)) => Ok(anew(&session.trace, model, session.model, left)),
    }
}

pub fn ask(session: &Session, x: usize, y: usize) -> Result<Answer, NotDone> {
    let asked = sound(session).and_then(|_| good_pair(&session.trace, x, y));
    asked.map_err(|number| (number, session.clone()))?;
    Ok(answer(session, x, y))
}

/// One record more, behind those that are there.
pub fn add(session: &Session, record: Record) -> Result<Session, NotDone> {
    let model = sound(session).and_then(|model| fault(&session.trace, &record).map_or(Ok(model), Err));
    let model = model.map_err(|number| (number, session.clone()))?;
    Ok(anew(&longer(&session.trace, record), model, session.model, &session.pairs))
}

/// The lowest load or swap that waits for its source.
pub fn waiting(session: &Session) -> Result<Option<usize>, NotDone> {
    sound(session).map_err(|number| (number, session.clone()))?;
    Ok(lowest_without_source(&session.trace))
}

/// What a record would earn behind a well formed trace: the lowest number.
fn fault(trace: &Trace, record: &Record) -> Option<u8> {
    let name = record.address().zip(record.written());
    let names = |other: &Record| other.address().zip(other.written()) == name;
    let cases = [
        (4, !within_bounds(record)),
        (6, name.is_some_and(|(address, value)| value == trace.first(address))),
        (7, trace.count == MOST_RECORDS),
        (8, name.is_some() && trace.records().iter().any(names)),
    ];
    cases.iter().find(|(_, applies)| *applies).map(|(number, _)| *number)
}

fn longer(trace: &Trace, record: Record) -> Trace {
    Trace::with(trace.firsts, &[trace.records(), &[record]].concat())
}

/// A session that was opened here and that nobody else can touch: no call has to make it anew to see that it is sound, and what stood
/// before each pair is still there. The answers are those of the functions above, for less work.
#[derive(Clone, Debug)]
pub struct Talk {
    kind: Model,
    session: Session,
    /// With no pair, with the first pair, with the first two, and so on; None where records came since.
    before: Vec<Option<Session>>,
}

impl Talk {
    pub fn open(trace: &Trace, model: u64) -> Result<Talk, NotOpened> {
        let session = open(trace, model)?;
        let kind = Model::numbered(model).expect("it was opened under a model");
        Ok(Talk { kind, session, before: Vec::new() })
    }

    /// The session beside a refused opening.
    pub fn of_nothing() -> Talk {
        Talk::open(&Trace::empty(), 1).expect("the empty trace opens")
    }

    pub fn session(&self) -> &Session {
        &self.session
    }

    pub fn suppose(&mut self, x: usize, y: usize) -> Result<(), u8> {
        let session = &self.session;
        good_pair(&session.trace, x, y)?;
        if session.pairs.len() == MOST_PAIRS {
            return Err(15);
        }
        let pairs = [&session.pairs[..], &[(x, y)]].concat();
        let next = anew(&session.trace, self.kind, session.model, &pairs);
        self.before.push(Some(std::mem::replace(&mut self.session, next)));
        Ok(())
    }

    pub fn take_back(&mut self) -> Result<(), u8> {
        let session = &self.session;
        let left = || anew(&session.trace, self.kind, session.model, &session.pairs[..session.pairs.len() - 1]);
        self.session = self.before.pop().ok_or(16)?.unwrap_or_else(left);
        Ok(())
    }

    pub fn ask(&self, x: usize, y: usize) -> Result<Answer, u8> {
        let session = self.session();
        good_pair(&session.trace, x, y)?;
        Ok(answer(session, x, y))
    }

    pub fn add(&mut self, record: Record) -> Result<(), u8> {
        let session = &self.session;
        if let Some(number) = fault(&session.trace, &record) {
            return Err(number);
        }
        self.session = anew(&longer(&session.trace, record), self.kind, session.model, &session.pairs);
        self.before.fill(None);
        Ok(())
    }

    pub fn waiting(&self) -> Option<usize> {
        lowest_without_source(&self.session.trace)
    }
}

/// From the table, for good numbers.
fn answer(session: &Session, x: usize, y: usize) -> Answer {
    match (session.contradicted, session.held.contains(&(x, y))) {
        (true, _) => Answer::Contradicted,
        (false, true) => Answer::Held,
        (false, false) => Answer::NotHeld,
    }
}

/// Only for a trace, a model and pairs that are good.
fn anew(trace: &Trace, kind: Model, model: u64, pairs: &[Pair]) -> Session {
    let round = last_round(trace, kind, pairs);
    let contradicted = round.contradicted();
    let held = if contradicted { Pairs::new() } else { round.chains };
    Session { trace: trace.clone(), model, pairs: pairs.to_vec(), contradicted, held }
}

/// The model of a session that is just what opening and supposing would give, or 12. Whatever keeps such a one from being opened is 12
/// too: a bad model, a trace that is not well formed, a bad pair or too many.
fn sound(session: &Session) -> Result<Model, u8> {
    let model = good(&session.trace, session.model).map_err(|_| 12)?;
    let can_be_opened = session.pairs.len() <= MOST_PAIRS && session.pairs.iter().all(|&(x, y)| good_pair(&session.trace, x, y).is_ok());
    if can_be_opened && anew(&session.trace, model, session.model, &session.pairs) == *session {
        Ok(model)
    } else {
        Err(12)
    }
}

fn good_pair(trace: &Trace, x: usize, y: usize) -> Result<(), u8> {
    if !trace.is_operation(x) || !trace.is_operation(y) {
        Err(13)
    } else if x == y {
        Err(14)
    } else {
        Ok(())
    }
}
