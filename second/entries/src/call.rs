//! The calls of a case, kept so that they can be told where something differs.

use second::bounds::MODELS;
use second::desk::Fields;
use std::fmt;

#[derive(Clone, Debug)]
pub enum Call {
    Report { room: usize },
    Number,
    Line,
    Start,
    End,
    Verdict { model: u8, room: usize },
    Limited { model: u8, limit: u64, room: usize },
    Judge { model: u8, list: Vec<u16>, room: usize },
    Run { model: u8, steps: Vec<u8>, room: usize },
    Steps { model: u8, list: Vec<u16>, room: usize },
    Smaller { model: u8, room: usize },
    Accepts { model: u8, list: Vec<u16> },
    Paper { model: u8, room: usize },
    Open { model: u8, room: usize },
    Suppose { x: usize, y: usize },
    TakeBack,
    Ask { x: usize, y: usize },
    Add { fields: Fields },
    Waiting { room: usize },
    Pack { room: usize },
    Unpack { room: usize },
    OpenFile { model: u8, room: usize },
    FileNumber,
    FileLine,
    Words,
    Loads,
    Signature { room: usize },
    Reads { words: Vec<u64>, room: usize },
    Night { model: u8, words: Vec<u64>, room: usize },
}

/// Models that there are not.
pub const OTHER_MODELS: [u8; 5] = [0, LAST_MODEL + 1, LAST_MODEL + 2, 128, 255];

/// The highest number of a model that there is; the lowest is 1.
pub const LAST_MODEL: u8 = MODELS as u8;

/// The entries' names without the front that all share.
pub const ENTRIES: [&str; 29] = [
    "report",
    "number",
    "line",
    "start",
    "end",
    "verdict",
    "limited",
    "judge",
    "run",
    "steps",
    "smaller",
    "open",
    "suppose",
    "take_back",
    "ask",
    "accepts",
    "add",
    "waiting",
    "pack",
    "unpack",
    "file_number",
    "file_line",
    "words",
    "loads",
    "signature",
    "reads",
    "open_file",
    "night",
    "paper",
];

impl Call {
    /// Which of `ENTRIES` is called.
    pub fn entry(&self) -> usize {
        match self {
            Call::Report { .. } => 0,
            Call::Number => 1,
            Call::Line => 2,
            Call::Start => 3,
            Call::End => 4,
            Call::Verdict { .. } => 5,
            Call::Limited { .. } => 6,
            Call::Judge { .. } => 7,
            Call::Run { .. } => 8,
            Call::Steps { .. } => 9,
            Call::Smaller { .. } => 10,
            Call::Open { .. } => 11,
            Call::Suppose { .. } => 12,
            Call::TakeBack => 13,
            Call::Ask { .. } => 14,
            Call::Accepts { .. } => 15,
            Call::Add { .. } => 16,
            Call::Waiting { .. } => 17,
            Call::Pack { .. } => 18,
            Call::Unpack { .. } => 19,
            Call::FileNumber => 20,
            Call::FileLine => 21,
            Call::Words => 22,
            Call::Loads => 23,
            Call::Signature { .. } => 24,
            Call::Reads { .. } => 25,
            Call::OpenFile { .. } => 26,
            Call::Night { .. } => 27,
            Call::Paper { .. } => 28,
        }
    }

    /// What comes back is a row of the table of answers: few enough to be counted one by one.
    pub fn answers_by_table(&self) -> bool {
        !matches!(self, Call::Report { .. } | Call::Line | Call::Start | Call::End | Call::FileLine | Call::Words | Call::Loads)
    }
}

impl fmt::Display for Call {
    fn fmt(&self, f: &mut fmt::Formatter<'_>) -> fmt::Result {
        write!(f, "{}", ENTRIES[self.entry()])?;
        match self {
            Call::Report { room } | Call::Pack { room } | Call::Unpack { room } => write!(f, " into {room} bytes"),
            Call::Verdict { model, room } => write!(f, " under {model} into {room} bytes"),
            Call::Limited { model, limit, room } => write!(f, " under {model} within {limit} steps into {room} bytes"),
            Call::Judge { model, list, room } => write!(f, " under {model} of {list:?} into {room} bytes"),
            Call::Run { model, steps, room } => write!(f, " under {model} by {steps:?} into {room} bytes"),
            Call::Steps { model, list, room } => write!(f, " under {model} of {list:?} into {room} bytes"),
            Call::Smaller { model, room } => write!(f, " under {model} into {room} bytes"),
            Call::Accepts { model, list } => write!(f, " under {model} of {list:?}"),
            Call::Paper { model, room } => write!(f, " under {model} into {room} numbers"),
            Call::Open { model, room } | Call::OpenFile { model, room } => write!(f, " under {model} in {room} bytes"),
            Call::Suppose { x, y } | Call::Ask { x, y } => write!(f, " {x} {y}"),
            Call::Add { fields } => write!(f, " {fields:?}"),
            Call::Waiting { room } => write!(f, " into {room} bytes"),
            Call::Signature { room } => write!(f, " into {room} words"),
            Call::Reads { words, room } => write!(f, " of {words:?} into {room} reads"),
            Call::Night { model, words, room } => write!(f, " under {model} of {words:?} into {room} numbers"),
            Call::Number
            | Call::Line
            | Call::Start
            | Call::End
            | Call::TakeBack
            | Call::FileNumber
            | Call::FileLine
            | Call::Words
            | Call::Loads => Ok(()),
        }
    }
}
