//! The document's bounds, all in one place: a request that moves one changes its line here, and nothing else.

/// A multiple of 8, so that a row of a session's table ends with a byte.
pub const MOST_RECORDS: usize = 256;
pub const MOST_TEXT: usize = 32_768;
pub const MOST_LINE: usize = 80;
pub const LAST_THREAD: u64 = 7;
pub const LAST_ADDRESS: u64 = 15;
pub const LAST_VALUE: u64 = 65_535;
pub const MOST_PAIRS: usize = 16;

/// The models are numbered from 1 to this; `trace::Model` knows all four of SC, TSO, PSO and WMO.
pub const MODELS: usize = 4;
