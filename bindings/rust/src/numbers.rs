//! Written by bindings/constants from the crates' own constants.

/// A trace has at most so many records.
pub const RECORDS: usize = 256;

/// So many pairs stand in a session at the most.
pub const PAIRS: usize = 16;

/// A text has at most so many bytes.
pub const TEXT: usize = 32768;

/// A buffer of this many bytes holds any answer in words.
pub const REPORT: usize = 8376;

/// A verdict in bytes has so many.
pub const VERDICT: usize = 770;

/// Where the operations begin in a verdict.
pub const OPERATIONS: usize = 2;

/// Where the rules begin in a verdict.
pub const RULES: usize = 514;

/// A limited verdict in bytes has so many.
pub const LIMITED: usize = 778;

/// Where the count of steps begins in a limited verdict, eight bytes.
pub const COUNTED: usize = 770;

/// So many bytes of a session stand before its trace's packed file.
pub const HEAD: usize = 8259;

/// Where the pairs begin in a session.
pub const STANDING: usize = 2;

/// Where a session says whether it is contradicted.
pub const MARK: usize = 66;

/// Where the table of what is held begins in a session.
pub const TABLE: usize = 67;

/// A session has at most so many bytes.
pub const SESSION: usize = 10363;

/// A packed file has at most so many bytes.
pub const FILE: usize = 2104;

/// Where a packed file says how many first values it has, in one byte.
pub const FIRSTS: usize = 5;

/// Where a packed file says how many records it has, in two bytes.
pub const COUNT: usize = 6;

/// Where the entries begin in a packed file.
pub const ENTRIES: usize = 8;

/// A first value in a packed file has so many bytes.
pub const FIRST: usize = 3;

/// A record in a packed file has so many bytes.
pub const RECORD: usize = 8;

/// Where a packed file or a text begins behind its length.
pub const BYTES_AT: usize = 2;

/// A buffer of this many bytes holds any packed file behind its length.
pub const PACKED: usize = 2106;

/// And of this many the text of any packed file.
pub const UNPACKED: usize = 32770;

/// The verdict on a run in a night's worth has so many numbers.
pub const BLOCK: usize = 514;

/// Where the operations begin in it.
pub const BLOCK_OPERATIONS: usize = 2;

/// And where the rules begin.
pub const BLOCK_RULES: usize = 258;

/// What the judge names has so many bytes.
pub const JUDGEMENT: usize = 4;

/// The place of an impossible step, and the number of a record that waits, has so many bytes.
pub const PLACE: usize = 2;

/// A list of possible steps has at most so many.
pub const STEPS: usize = 512;

/// Where the steps of an order begin.
pub const STEPS_AT: usize = 2;

/// The steps of an order in bytes have so many.
pub const REPLAY: usize = 514;

/// Where the list begins in a paper, behind its length in two numbers.
pub const LIST: usize = 2;

/// Where the old numbers begin in what is left of a trace.
pub const OLDS: usize = 4;

/// Where the text begins in what is left of a trace.
pub const LEFT: usize = 516;

/// What is left of a trace has at most so many bytes.
pub const SMALLER: usize = 37508;

/// What orders a memory may show.
#[derive(Clone, Copy, Debug, PartialEq, Eq)]
pub enum Model {
    Sc = 1,
    Tso = 2,
    Pso = 3,
    Wmo = 4,
}

/// In the order of their numbers, which begin with 1.
pub const MODELS: [Model; 4] = [Model::Sc, Model::Tso, Model::Pso, Model::Wmo];

/// One table of answers for every entry; docs/GUIDE.md explains them. (10 is for traces that were not read from a text: no entry gives it.)
#[derive(Clone, Copy, Debug, PartialEq, Eq)]
pub enum Answer {
    /// The text or file is good; or opened, supposed, taken back, added, packed, unpacked; or none waits.
    Done = 0,
    /// Over 32,768 bytes.
    LongText = 1,
    /// Over 80 bytes.
    LongLine = 2,
    /// None of the forms, or no ending line feed.
    NoForm = 3,
    /// Thread, address or value past its bound.
    PastBound = 4,
    /// A swap's two addresses differ.
    TwoAddresses = 5,
    /// The first value of its address is written.
    FirstWritten = 6,
    /// Record 257, counted from 1.
    ManyRecords = 7,
    /// Value written before at that address.
    WrittenBefore = 8,
    /// Not 1 to 4.
    NoModel = 9,
    /// Somebody reads what nobody wrote.
    NoSource = 11,
    /// Not a session that opening, adding and supposing make.
    NoSession = 12,
    /// A record that is a fence or past the end.
    NoOperation = 13,
    /// One record twice.
    SameTwice = 14,
    /// Pair 17, counted from 1.
    ManyPairs = 15,
    /// Take back, and no pair stands.
    NoPair = 16,
    /// An init line behind a record, or a second one for its address.
    LateInit = 17,
    /// No packed file: another mark, cut short, or left over.
    NoFile = 18,
    /// A packed file of another version.
    OtherVersion = 19,
    /// No entry of a file, and no record to add: a kind past 3, a first value 0, addresses that do not rise, an unused number other than 0.
    NoEntry = 20,
    /// The lent memory is too short, and stays as it was.
    NoRoom = 21,
    /// A core appears in the text or file, and a lower one does not.
    LostCore = 22,
    /// The first valid order.
    Order = 64,
    /// The rules run in a circle.
    Circle = 65,
    /// Every order was ruled out.
    NoneLeft = 66,
    /// The first before the second is held.
    Held = 67,
    /// It is not.
    NotHeld = 68,
    /// The supposed pairs cannot all be.
    Contradicted = 69,
    /// The list is a valid order.
    Valid = 70,
    /// It has not as many numbers as there are operations.
    WrongLength = 71,
    /// A number in it is a fence or past the end.
    BadNumber = 72,
    /// A record stands in it twice.
    Repeat = 73,
    /// A kept pair stands the wrong way round.
    OutOfTurn = 74,
    /// A record would read another value.
    WrongValue = 75,
    /// The plain search makes more steps than the limit.
    Undecided = 76,
    /// A trace that is to be cut down has an order.
    NothingWrong = 77,
    /// It was cut down.
    Cut = 78,
    /// A step is impossible.
    Stuck = 25,
    /// All records ran, and the buffers are empty.
    Through = 79,
    /// All steps are done, and records are left or entries wait.
    NotThrough = 80,
    /// Steps that run an order through.
    Replayed = 81,
    /// The list is no valid order.
    NoOrder = 82,
    /// The list shows that there is no valid order.
    Accepted = 90,
    /// It does not show it.
    NotAccepted = 91,
    /// A load or swap waits for its source.
    Waits = 92,
    /// No paper: the trace has an order, or a source is missing.
    NothingToShow = 93,
    /// A paper was written.
    Shown = 94,
}

/// In the order of their numbers.
#[rustfmt::skip]
pub(crate) const ANSWERS: [Answer; 47] = [
    Answer::Done,
    Answer::LongText,
    Answer::LongLine,
    Answer::NoForm,
    Answer::PastBound,
    Answer::TwoAddresses,
    Answer::FirstWritten,
    Answer::ManyRecords,
    Answer::WrittenBefore,
    Answer::NoModel,
    Answer::NoSource,
    Answer::NoSession,
    Answer::NoOperation,
    Answer::SameTwice,
    Answer::ManyPairs,
    Answer::NoPair,
    Answer::LateInit,
    Answer::NoFile,
    Answer::OtherVersion,
    Answer::NoEntry,
    Answer::NoRoom,
    Answer::LostCore,
    Answer::Order,
    Answer::Circle,
    Answer::NoneLeft,
    Answer::Held,
    Answer::NotHeld,
    Answer::Contradicted,
    Answer::Valid,
    Answer::WrongLength,
    Answer::BadNumber,
    Answer::Repeat,
    Answer::OutOfTurn,
    Answer::WrongValue,
    Answer::Undecided,
    Answer::NothingWrong,
    Answer::Cut,
    Answer::Stuck,
    Answer::Through,
    Answer::NotThrough,
    Answer::Replayed,
    Answer::NoOrder,
    Answer::Accepted,
    Answer::NotAccepted,
    Answer::Waits,
    Answer::NothingToShow,
    Answer::Shown,
];
