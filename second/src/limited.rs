//! The verdict within a limit of steps (request 7 of the second document). A step is one operation placed by the plain search, which knows nothing of
//! the rules' edges: it extends a list by the lowest operation that may follow, and goes back when stuck.

use crate::orders::First;
use crate::verdict::Verdict;

#[derive(Clone, Debug, PartialEq, Eq)]
pub enum Limited {
    /// The verdict, and the steps of the plain search; none for a missing source and a circle.
    Decided(Verdict, u64),
    /// The search makes more steps than this.
    Undecided(u64),
}

/// Told the verdict where it is a missing source or a circle, and otherwise what the plain search came to within so many steps, if it did. None where
/// this program does not know.
pub fn limited(early: Option<&Verdict>, plain: &Option<(First, u64)>, most_steps: u64, limit: u64) -> Option<Limited> {
    if let Some(verdict) = early {
        return Some(Limited::Decided(verdict.clone(), 0));
    }
    match plain {
        Some((first, steps)) if *steps <= limit => {
            let verdict = match first {
                First::Order(list) => Verdict::Order(list.clone()),
                First::None => Verdict::NoneLeft,
                First::NotKnown => return None,
            };
            Some(Limited::Decided(verdict, *steps))
        }
        Some(_) => Some(Limited::Undecided(limit)),
        None => (limit <= most_steps).then_some(Limited::Undecided(limit)),
    }
}
