//! The lines that an answer is told in.

use crate::reader::Refusal;
use crate::trace::Model;
use crate::verdict::Verdict;

/// What a line says where this program does not know; the document has no such line.
pub const NOT_KNOWN: &str = "not known";

pub fn refused(refusal: &Refusal<'_>) -> String {
    format!("refused {} line {}\n", refusal.number, refusal.line)
}

pub fn line(model: Model, verdict: &Verdict) -> String {
    format!("{}: {}\n", model.name(), told(verdict))
}

fn told(verdict: &Verdict) -> String {
    match verdict {
        Verdict::NoSource(load) => format!("no order, no source {load}"),
        Verdict::Circle(circle) => format!("no order, circle{} by{}", listed(&circle.operations), listed(&circle.rules)),
        Verdict::Order(list) => format!("order{}", listed(list)),
        Verdict::NoneLeft => "no order, none left".to_string(),
        Verdict::NotKnown => NOT_KNOWN.to_string(),
    }
}

/// Each number with a space before it, so that an empty list leaves no space.
fn listed<T: ToString>(numbers: &[T]) -> String {
    numbers.iter().map(|number| format!(" {}", number.to_string())).collect()
}
