//! Document 01 told a second time, by someone who has not seen the first telling.
//!
//! Nothing here is proved and little of it is fast. What it is good for: where its answer and the proved program's answer differ, at
//! least one of the two has misread the document. So every module stays as near to the document's own words as a program can.
//!
//! | Module | Its part of the document |
//! |---|---|
//! | `bounds` | the bounds |
//! | `trace` | what the bench records, first values, models, kept pairs, well formed |
//! | `reader` | the line forms, numbers 1 to 8, 17 and 22 |
//! | `packed` | the packed trace file, numbers 4, 6, 7, 8, 10 and 18 to 22 |
//! | `rules` | the edges that the rules force, rounds, held, the circle shown |
//! | `orders` | valid orders, the judge, the first order in dictionary order |
//! | `verdict` | the verdict, numbers 9 and 10 |
//! | `plain` | the plain machine of document 02, number 25 |
//! | `limited` | the verdict within a limit of steps |
//! | `signatures` | what the loads saw, packed into words (request 13), numbers 23, 24 and 26 |
//! | `nights` | many runs of one program judged by their words |
//! | `smaller` | a faulty trace cut down (request 9), literally |
//! | `papers` | lists of reasons why there is no order (request 11): a reader, and a writer for the comparison |
//! | `session` | suppose, take back, ask, add, waiting, numbers 9 to 16 |
//! | `report` | the lines of an answer |
//! | `desk` | the entries of the library, in bytes (their form is ours; what they say is the document's) |
//! | `packs` | those over packed files |
//! | `bench` | the program at the bench |
//! | `chance`, `machine`, `families`, `lists`, `files`, `script`, `plan` | texts, lists, files and session words to compare on (these are ours, not the document's) |
//! | `stated` | the document's own traces with the outputs it states |

pub mod bench;
pub mod bounds;
pub mod chance;
pub mod desk;
pub mod families;
pub mod files;
pub mod limited;
pub mod lists;
pub mod machine;
pub mod nights;
pub mod orders;
pub mod packed;
pub mod packs;
pub mod papers;
pub mod plain;
pub mod plan;
pub mod reader;
pub mod report;
pub mod rules;
pub mod script;
pub mod session;
pub mod signatures;
pub mod smaller;
pub mod stated;
pub mod trace;
pub mod verdict;
