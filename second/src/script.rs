//! A session told in words: `suppose X Y`, `back`, `ask X Y`. One line comes back for the opening and one for each of them.

use crate::chance::Chance;
use crate::rules::Pairs;
use crate::session::{ask, open, suppose, take_back, Answer, Session};
use crate::trace::{Trace, MOST_RECORDS};

pub fn told_pairs(held: &Pairs) -> String {
    held.iter().fold("held".to_string(), |told, (x, y)| format!("{told} {x}-{y}"))
}

/// None where the words are not of the form.
pub fn answers(trace: &Trace, model: u64, mut script: &[&str]) -> Option<String> {
    let mut session = match open(trace, model) {
        Ok(session) => session,
        Err(refused) => return Some(format!("open: refused {}\n", refused.number)),
    };
    let mut told = format!("open: {}\n", told_state(&session));
    loop {
        script = match *script {
            [] => return Some(told),
            ["back", ref rest @ ..] => {
                told += &format!("back: {}\n", moved(&mut session, take_back));
                rest
            }
            ["suppose", x, y, ref rest @ ..] => {
                let (x, y) = (x.parse().ok()?, y.parse().ok()?);
                told += &format!("suppose {x} {y}: {}\n", moved(&mut session, |session| suppose(session, x, y)));
                rest
            }
            ["ask", x, y, ref rest @ ..] => {
                let (x, y) = (x.parse().ok()?, y.parse().ok()?);
                told += &format!("ask {x} {y}: {}\n", answered(&session, x, y));
                rest
            }
            _ => return None,
        };
    }
}

fn told_state(session: &Session) -> String {
    if session.contradicted {
        "contradicted".to_string()
    } else {
        told_pairs(&session.held)
    }
}

fn moved(session: &mut Session, change: impl Fn(&Session) -> Result<Session, (u8, Session)>) -> String {
    match change(session) {
        Ok(next) => {
            *session = next;
            told_state(session)
        }
        Err((number, as_given)) => {
            *session = as_given;
            format!("refused {number}")
        }
    }
}

fn answered(session: &Session, x: usize, y: usize) -> String {
    match ask(session, x, y) {
        Ok(Answer::Held) => "held".to_string(),
        Ok(Answer::NotHeld) => "not held".to_string(),
        Ok(Answer::Contradicted) => "contradicted".to_string(),
        Err((number, _)) => format!("refused {number}"),
    }
}

/// Words by chance: mostly pairs of operations, at times a fence, the same twice or a number past the end; some go past 16 pairs.
pub fn drawn(chance: &mut Chance, trace: &Trace) -> Vec<String> {
    let many = chance.percent(15);
    let count = if many { chance.between(18, 26) } else { chance.between(2, 14) };
    (0..count).flat_map(|_| command(chance, trace, if many { 85 } else { 45 })).collect()
}

fn command(chance: &mut Chance, trace: &Trace, supposes: usize) -> Vec<String> {
    let kind = chance.below(100);
    if kind >= supposes && chance.percent(40) {
        return vec!["back".to_string()];
    }
    let word = if kind < supposes { "suppose" } else { "ask" };
    let (x, y) = (number(chance, trace), number(chance, trace));
    // Runs stand mostly in the order in which they were run: the lower number first contradicts less.
    let (x, y) = if chance.percent(65) { (x.min(y), x.max(y)) } else { (x, y) };
    vec![word.to_string(), x.to_string(), y.to_string()]
}

fn number(chance: &mut Chance, trace: &Trace) -> usize {
    let operations = trace.operations();
    if operations.is_empty() || chance.percent(3) {
        *chance.of(&[0, trace.count, trace.count + 1, MOST_RECORDS - 1, MOST_RECORDS, MOST_RECORDS + 1])
    } else if chance.percent(3) {
        chance.below(trace.count)
    } else {
        *chance.of(&operations)
    }
}
