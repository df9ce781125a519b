//! What the numbers mean, in the words of docs/GUIDE.md's tables; a test holds them against that page.

use crate::input::Turned;
use wheelotter::Answer;

/// What is wrong, for every number with which the library turns something back.
pub fn meaning(answer: Answer) -> &'static str {
    match answer {
        Answer::LongText => "over 32,768 bytes",
        Answer::LongLine => "over 80 bytes",
        Answer::NoForm => "none of the forms",
        Answer::PastBound => "core, address or value past its bound",
        Answer::TwoAddresses => "a swap on two addresses",
        Answer::FirstWritten => "the address's first value is written",
        Answer::ManyRecords => "too many records",
        Answer::WrittenBefore => "that value was written to that address before",
        Answer::NoModel => "a model that has no machine",
        Answer::NoSource => "a session is opened on a trace that has a missing source",
        Answer::NoSession => "these bytes are not a session",
        Answer::NoOperation => "x or y is a fence or past the end",
        Answer::SameTwice => "x is y",
        Answer::ManyPairs => "a 17th pair",
        Answer::NoPair => "take back, and no pair stands",
        Answer::LateInit => "memory begins once, before all records",
        Answer::NoFile => "no mark, cut short or left over",
        Answer::OtherVersion => "another version",
        Answer::NoEntry => "an entry that no file has",
        Answer::LostCore => "a core is lost",
        Answer::Stuck => "a step is impossible",
        _ => "see docs/GUIDE.md",
    }
}

/// A refusal in one line: the number, the line, the meaning and the line itself.
pub fn refused(turned: &Turned) -> String {
    let part = match turned.part.is_empty() {
        true => String::new(),
        false => format!(": {}", String::from_utf8_lossy(&turned.part).escape_debug()),
    };
    format!("refused {} line {} ({}){part}", turned.answer as u8, turned.line, meaning(turned.answer))
}
