//! Every entry of the proved library held against the second reading of document 01, in one process.
//!
//! | Module | Its part |
//! |---|---|
//! | `desk` | the entries under test |
//! | `call` | a call, told |
//! | `lent` | memory that is lent, and memory around it |
//! | `case` | a case: its text, its calls, its counts, what differed |
//! | `texts` | the entries that take a text |
//! | `machines` | the plain machine's, and whether it agrees with the verdict |
//! | `cuts` | a faulty trace cut down |
//! | `papers` | the small reader of papers |
//! | `packs` | those over packed files |
//! | `signed` | words and reads of a text's program |
//! | `sessions` | opening, and the calls on a session |
//! | `records` | records that are added to one |
//! | `damage` | bytes that were a session |
//! | `compare` | a whole case |

pub mod call;
pub mod case;
pub mod compare;
pub mod cuts;
pub mod damage;
pub mod desk;
pub mod lent;
pub mod machines;
pub mod packs;
pub mod papers;
pub mod records;
pub mod sessions;
pub mod signed;
pub mod texts;
