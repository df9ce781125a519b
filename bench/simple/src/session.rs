//! Sessions: what is held with pairs that are supposed. As the proved library's, a session that is handed in is not believed: every call first
//! makes it afresh from its own text, model and pairs, and compares.

use crate::models::kept;
use crate::rules::{missing, rounds, source};
use crate::{reader, Model, Record, Table};

/// So many pairs stand at the most, on traces of at most so many records.
const PAIRS: usize = 16;
const RECORDS: usize = 256;

#[derive(Clone, PartialEq)]
pub struct Session<T> {
    pub text: Vec<u8>,
    pub model: Model,
    pub pairs: Vec<(usize, usize)>,
    pub contradicted: bool,
    /// Empty while contradicted.
    pub held: T,
}

#[derive(Clone, Copy, Debug, PartialEq, Eq)]
pub enum Asked {
    Held,
    NotHeld,
    Contradicted,
}

/// Refusals come as their numbers.
impl<T: Table> Session<T> {
    pub fn open(text: &[u8], model: Model) -> Result<Session<T>, u8> {
        Session::with(text, model, &[])
    }

    /// Opened, and all these pairs supposed.
    pub fn with(text: &[u8], model: Model, pairs: &[(usize, usize)]) -> Result<Session<T>, u8> {
        let records = reader::read(text, RECORDS).map_err(|refusal| refusal.number)?;
        Session::made(&records, text, model, pairs)
    }

    pub fn suppose(&self, x: usize, y: usize) -> Result<Session<T>, u8> {
        let records = self.looked_at()?;
        supposable(&records, x, y)?;
        if self.pairs.len() == PAIRS {
            return Err(15);
        }
        Session::made(&records, &self.text, self.model, &[&self.pairs[..], &[(x, y)]].concat())
    }

    pub fn take_back(&self) -> Result<Session<T>, u8> {
        let records = self.looked_at()?;
        let (_, pairs) = self.pairs.split_last().ok_or(16)?;
        Session::made(&records, &self.text, self.model, pairs)
    }

    pub fn ask(&self, x: usize, y: usize) -> Result<Asked, u8> {
        let records = self.looked_at()?;
        supposable(&records, x, y)?;
        Ok(match self.contradicted {
            true => Asked::Contradicted,
            false if self.held.has(x, y) => Asked::Held,
            false => Asked::NotHeld,
        })
    }

    /// The session of a trace, a model and pairs: the closing that all calls rest on.
    fn made(records: &[Record], text: &[u8], model: Model, pairs: &[(usize, usize)]) -> Result<Session<T>, u8> {
        let sources: Vec<Option<usize>> = (0..records.len()).map(|load| source(records, load)).collect();
        if missing(records, &sources).is_some() {
            return Err(11);
        }
        let mut begun: T = kept(records, model);
        pairs.iter().for_each(|&(x, y)| begun.put(x, y));
        let chains = rounds(records, &begun, &sources).chains;
        let contradicted = (0..records.len()).any(|x| chains.has(x, x));
        let held = if contradicted { T::empty(records.len()) } else { chains };
        Ok(Session { text: text.to_vec(), model, pairs: pairs.to_vec(), contradicted, held })
    }

    /// The records of a session that is what it says.
    fn looked_at(&self) -> Result<Vec<Record>, u8> {
        let records = reader::read(&self.text, RECORDS).map_err(|_| 12)?;
        let good = self.pairs.len() <= PAIRS && self.pairs.iter().all(|&(x, y)| supposable(&records, x, y).is_ok());
        let same = good && Session::made(&records, &self.text, self.model, &self.pairs).is_ok_and(|made| made == *self);
        same.then_some(records).ok_or(12)
    }
}

fn supposable(records: &[Record], x: usize, y: usize) -> Result<(), u8> {
    let operation = |x: usize| records.get(x).is_some_and(|record| !record.is_fence());
    match operation(x) && operation(y) {
        false => Err(13),
        true if x == y => Err(14),
        true => Ok(()),
    }
}
