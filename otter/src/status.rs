//! What otter ends with.

use std::error::Error;
use std::io;

/// Every trace keeps the model.
pub const KEPT: u8 = 0;

/// At least one trace has no order.
pub const FAULTY: u8 = 1;

/// Something could not be judged: turned back, unreadable, undecided at the step limit, wrong words, or no trace at all.
pub const UNJUDGED: u8 = 2;

/// What a command ends with; an error is told on standard error and ends with UNJUDGED.
pub type Done = Result<u8, Box<dyn Error>>;

/// At the end of `otter --help` and of the help of `check`.
pub const HELP: &str = "\
Exit status:
  0  every trace keeps the model
  1  at least one trace has no order
  2  something could not be judged: turned back, unreadable, undecided at the step limit, wrong words, or no trace at all";

/// Whether an error is that nobody reads the answers any more: then nothing is said. Not all was judged, so the status stays UNJUDGED.
pub fn closed(error: &(dyn Error + 'static)) -> bool {
    error.downcast_ref::<io::Error>().is_some_and(|error| error.kind() == io::ErrorKind::BrokenPipe)
}
