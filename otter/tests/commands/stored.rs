//! Whole outputs. In tests/stored a line `$ WORDS` is a command; below it stands what it writes: its answers, what it says on standard error behind
//! `! `, and its status behind `= `. Seconds and speeds are left out. STORE=1 writes them afresh, to be read before they are kept.

use super::{root, shell, Said};
use std::fs;

/// How long something took is another each time.
pub fn timeless(line: &str) -> String {
    match (line.find("; "), line.ends_with(" a second")) {
        (Some(place), true) => format!("{}; so many seconds", &line[..place]),
        _ => line.to_string(),
    }
}

/// A command with all that it wrote.
fn told(words: &str, said: &Said) -> String {
    let mut told = format!("$ {words}\n{}", said.out);
    if !said.out.is_empty() && !said.out.ends_with('\n') {
        told.push('\n');
    }
    said.err.lines().for_each(|line| told += &format!("! {}\n", timeless(line)));
    told + &format!("= {}\n", said.status)
}

/// Every command of a stored page, run again.
fn page(name: &str) {
    let path = root().join("otter/tests/stored").join(name);
    let stored = fs::read_to_string(&path).unwrap();
    let commands = stored.lines().filter_map(|line| line.strip_prefix("$ "));
    let now: Vec<String> = commands.map(|words| told(words, &shell(words, &root()))).collect();
    assert!(!now.is_empty());
    let now = now.join("\n");
    if std::env::var("STORE").is_ok() {
        fs::write(&path, now).unwrap();
        return;
    }
    let differs = stored.lines().zip(now.lines()).find(|(stored, now)| stored != now);
    assert!(stored == now, "{name} differs, first at (stored, now): {differs:#?}");
}

#[test]
fn check() {
    page("check.txt");
}

#[test]
fn show() {
    page("show.txt");
}

#[test]
fn explain() {
    page("explain.txt");
}

#[test]
fn report() {
    page("report.txt");
}

#[test]
fn talk() {
    page("talk.txt");
}

#[test]
fn replay() {
    page("replay.txt");
}

#[test]
fn import() {
    page("import.txt");
}

#[test]
fn shrink() {
    page("shrink.txt");
}

#[test]
fn pack() {
    page("pack.txt");
}

#[test]
fn night() {
    page("night.txt");
}

#[test]
fn help() {
    page("help.txt");
}

#[test]
fn paper() {
    page("paper.txt");
}
