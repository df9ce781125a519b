//! What the bench records: records, traces, models, the pairs that a model keeps, and when a trace is well formed.

use std::collections::BTreeSet;
use std::fmt;

pub use crate::bounds::{LAST_ADDRESS, LAST_THREAD, LAST_VALUE, MODELS, MOST_RECORDS};

/// The value of an address before anything is written there, where no init line says another.
pub const BEGINNING: u64 = 0;

pub const ADDRESSES: usize = LAST_ADDRESS as usize + 1;

/// What each address holds before anything is written there.
pub type Firsts = [u64; ADDRESSES];

/// Numbers are wide on purpose: a record past its bound can then be written down, and found not well formed.
#[derive(Clone, Copy, Debug, PartialEq, Eq, PartialOrd, Ord)]
pub enum Record {
    Load { thread: u64, address: u64, read: u64 },
    Store { thread: u64, address: u64, written: u64 },
    Swap { thread: u64, address: u64, read: u64, written: u64 },
    Fence { thread: u64 },
}

impl Record {
    pub fn thread(&self) -> u64 {
        match *self {
            Record::Load { thread, .. } | Record::Store { thread, .. } | Record::Swap { thread, .. } | Record::Fence { thread } => thread,
        }
    }

    /// None for a fence, which has no address.
    pub fn address(&self) -> Option<u64> {
        match *self {
            Record::Load { address, .. } | Record::Store { address, .. } | Record::Swap { address, .. } => Some(address),
            Record::Fence { .. } => None,
        }
    }

    pub fn read(&self) -> Option<u64> {
        match *self {
            Record::Load { read, .. } | Record::Swap { read, .. } => Some(read),
            Record::Store { .. } | Record::Fence { .. } => None,
        }
    }

    pub fn written(&self) -> Option<u64> {
        match *self {
            Record::Store { written, .. } | Record::Swap { written, .. } => Some(written),
            Record::Load { .. } | Record::Fence { .. } => None,
        }
    }

    pub fn is_fence(&self) -> bool {
        matches!(self, Record::Fence { .. })
    }

    pub fn is_plain_load(&self) -> bool {
        matches!(self, Record::Load { .. })
    }

    pub fn is_plain_store(&self) -> bool {
        matches!(self, Record::Store { .. })
    }
}

/// A record as its line, without the line feed.
impl fmt::Display for Record {
    fn fmt(&self, f: &mut fmt::Formatter<'_>) -> fmt::Result {
        match *self {
            Record::Load { thread, address, read } => write!(f, "{thread}: M[{address}] == {read}"),
            Record::Store { thread, address, written } => write!(f, "{thread}: M[{address}] := {written}"),
            Record::Swap { thread, address, read, written } => {
                write!(f, "{thread}: {{ M[{address}] == {read}; M[{address}] := {written} }}")
            }
            Record::Fence { thread } => write!(f, "{thread}: sync"),
        }
    }
}

/// The line that gives an address its first value, without the line feed.
pub fn init_line(address: usize, value: u64) -> String {
    format!("init: M[{address}] := {value}")
}

/// The plainest text of a trace: init lines of the first values other than 0, addresses rising, and a line for each record. Other texts of it have
/// their init lines in another order, and some of 0.
pub fn text_of(trace: &Trace) -> Vec<u8> {
    let told = trace.firsts.iter().enumerate().filter(|(_, value)| **value != BEGINNING);
    let inits = told.map(|(address, &value)| init_line(address, value));
    let records = trace.records().iter().map(Record::to_string);
    inits.chain(records).map(|line| line + "\n").collect::<String>().into_bytes()
}

pub const UNUSED: Record = Record::Fence { thread: 0 };

/// As many places as there may be records, of which the first `count` are records. Anyone can build one, well formed or not.
#[derive(Clone, Debug, PartialEq, Eq)]
pub struct Trace {
    pub count: usize,
    pub places: [Record; MOST_RECORDS],
    pub firsts: Firsts,
}

impl Trace {
    pub fn empty() -> Trace {
        Trace { count: 0, places: [UNUSED; MOST_RECORDS], firsts: [BEGINNING; ADDRESSES] }
    }

    /// Every address begins at 0. Panics past the most records: callers have counted.
    pub fn of(records: &[Record]) -> Trace {
        Trace::with(Trace::empty().firsts, records)
    }

    pub fn with(firsts: Firsts, records: &[Record]) -> Trace {
        let mut trace = Trace { firsts, ..Trace::empty() };
        trace.places[..records.len()].copy_from_slice(records);
        trace.count = records.len();
        trace
    }

    /// An address past the bound has none; it spoils the form, and nothing is asked of it then.
    pub fn first(&self, address: u64) -> u64 {
        usize::try_from(address).ok().and_then(|address| self.firsts.get(address)).copied().unwrap_or(BEGINNING)
    }

    /// A load or swap whose value is the one that its address begins with.
    pub fn reads_first(&self, load: usize) -> bool {
        let first = self.places[load].address().map(|address| self.first(address));
        first.is_some() && self.places[load].read() == first
    }

    pub fn records(&self) -> &[Record] {
        &self.places[..self.count]
    }

    /// Record numbers of the loads, stores and swaps, lowest first.
    pub fn operations(&self) -> Vec<usize> {
        (0..self.count).filter(|&x| !self.places[x].is_fence()).collect()
    }

    pub fn is_operation(&self, x: usize) -> bool {
        x < self.count && !self.places[x].is_fence()
    }

    pub fn before_in_program(&self, x: usize, y: usize) -> bool {
        x < y && self.places[x].thread() == self.places[y].thread()
    }

    fn fence_between(&self, x: usize, y: usize) -> bool {
        let thread = self.places[x].thread();
        (x + 1..y).any(|f| self.places[f] == Record::Fence { thread })
    }

    pub fn writes_to(&self, x: usize, address: u64) -> bool {
        self.places[x].written().is_some() && self.places[x].address() == Some(address)
    }

    /// The store or swap that a load or swap has its value from, if it reads something else than its address's first value and such a writer
    /// stands in the trace. A swap is never its own source.
    pub fn source(&self, load: usize) -> Option<usize> {
        let address = self.places[load].address()?;
        let value = self.places[load].read().filter(|&value| value != self.first(address))?;
        (0..self.count).find(|&s| s != load && self.writes_to(s, address) && self.places[s].written() == Some(value))
    }

    /// A thread appears and a lower one does not: a recorder lost that core. Fences are records, and appear; who hands in a trace by value may do so.
    pub fn skips_a_thread(&self) -> bool {
        let appears: BTreeSet<u64> = self.records().iter().map(Record::thread).collect();
        appears.iter().any(|&thread| (0..thread).any(|lower| !appears.contains(&lower)))
    }

    pub fn well_formed(&self) -> bool {
        self.count <= MOST_RECORDS
            && self.firsts.iter().all(|&value| value <= LAST_VALUE)
            && self.records().iter().all(within_bounds)
            && self.places[self.count..].iter().all(|place| *place == UNUSED)
            && self.writes_are_names()
    }

    /// Nobody writes an address's first value, and no address gets a value twice.
    fn writes_are_names(&self) -> bool {
        let mut seen = BTreeSet::new();
        self.records().iter().all(|record| match (record.address(), record.written()) {
            (Some(address), Some(value)) => value != self.first(address) && seen.insert((address, value)),
            _ => true,
        })
    }
}

pub fn within_bounds(record: &Record) -> bool {
    let below = |number: Option<u64>, last: u64| number.is_none_or(|number| number <= last);
    record.thread() <= LAST_THREAD
        && below(record.address(), LAST_ADDRESS)
        && below(record.read(), LAST_VALUE)
        && below(record.written(), LAST_VALUE)
}

#[derive(Clone, Copy, Debug, PartialEq, Eq)]
pub enum Model {
    Sc,
    Tso,
    Pso,
    Wmo,
}

impl Model {
    /// By their numbers, whether the program has them or not.
    pub const KNOWN: [Model; 4] = [Model::Sc, Model::Tso, Model::Pso, Model::Wmo];

    /// Those that there are.
    pub fn all() -> &'static [Model] {
        &Model::KNOWN[..MODELS]
    }

    pub fn number(self) -> u64 {
        self as u64 + 1
    }

    pub fn numbered(number: u64) -> Option<Model> {
        Model::all().iter().copied().find(|model| model.number() == number)
    }

    pub fn name(self) -> &'static str {
        match self {
            Model::Sc => "SC",
            Model::Tso => "TSO",
            Model::Pso => "PSO",
            Model::Wmo => "WMO",
        }
    }
}

/// x is before y in program order, both are operations, and the model does not let the pair off.
pub fn kept(trace: &Trace, model: Model, x: usize, y: usize) -> bool {
    trace.is_operation(x) && trace.is_operation(y) && trace.before_in_program(x, y) && !let_off(trace, model, x, y)
}

/// No model lets a pair off that has a fence between.
fn let_off(trace: &Trace, model: Model, x: usize, y: usize) -> bool {
    let (first, second) = (&trace.places[x], &trace.places[y]);
    let store_then_load = first.is_plain_store() && second.is_plain_load();
    let store_then_write = first.is_plain_store() && second.written().is_some();
    let one_address = first.address() == second.address();
    let without_fence = match model {
        Model::Sc => false,
        Model::Tso => store_then_load,
        Model::Pso => store_then_load || store_then_write && !one_address,
        Model::Wmo => !one_address || store_then_load,
    };
    without_fence && !trace.fence_between(x, y)
}
