//! tell read FILE..                  each text as the reader sees it
//! tell edges FILE..                 what the rules force in it under each model: the circle, or all that is held
//! tell session MODEL WORD.. < TEXT  a session; the words are `suppose X Y`, `back`, `ask X Y`; one line comes back for each
//!
//! For holding the parts of the proved program against this one, where its whole output would not show a difference.

use second::bench::standard_input;
use second::reader::{read, read_lines};
use second::rules::{circle, last_round};
use second::script::{answers, told_pairs};
use second::trace::{Model, Record, Trace};
use std::fs;
use std::process::ExitCode;

fn main() -> ExitCode {
    let words: Vec<String> = std::env::args().skip(1).collect();
    let words: Vec<&str> = words.iter().map(String::as_str).collect();
    let told = match words.as_slice() {
        ["read", files @ ..] => each(files, told_text),
        ["edges", files @ ..] => each(files, told_edges),
        ["session", model, script @ ..] => told_session(model, script),
        _ => None,
    };
    match told {
        Some(told) => {
            print!("{told}");
            ExitCode::SUCCESS
        }
        None => {
            eprintln!("usage: tell read FILE.. | tell edges FILE.. | tell session MODEL [suppose X Y | back | ask X Y].. < TEXT");
            ExitCode::from(2)
        }
    }
}

fn each(files: &[&str], tell: fn(&str, &[u8]) -> String) -> Option<String> {
    files.iter().map(|file| fs::read(file).ok().map(|text| tell(file, &text))).collect()
}

fn told_text(file: &str, text: &[u8]) -> String {
    match read(text) {
        Err(refusal) => {
            format!("{file}: refused {} line {} <{}>\n", refusal.number, refusal.line, String::from_utf8_lossy(refusal.part))
        }
        Ok(trace) => {
            let told = |(address, value): (usize, &u64)| if *value == 0 { String::new() } else { format!(" first {address} {value}") };
            let firsts: String = trace.firsts.iter().enumerate().map(told).collect();
            let records: String = trace.records().iter().map(told_record).collect();
            format!("{file}: {} records{firsts}{records} <>\n", trace.count)
        }
    }
}

fn told_record(record: &Record) -> String {
    match *record {
        Record::Load { thread, address, read } => format!(" load {thread} {address} {read}"),
        Record::Store { thread, address, written } => format!(" store {thread} {address} {written}"),
        Record::Swap { thread, address, read, written } => format!(" swap {thread} {address} {read} {written}"),
        Record::Fence { thread } => format!(" fence {thread}"),
    }
}

fn told_edges(file: &str, text: &[u8]) -> String {
    match read(text) {
        Err(refusal) => format!("{file}: refused {} line {}\n", refusal.number, refusal.line),
        Ok(trace) => Model::all().iter().map(|&model| format!("{file} {}: {}\n", model.name(), forced(&trace, model))).collect(),
    }
}

fn forced(trace: &Trace, model: Model) -> String {
    match circle(trace, model) {
        Some(circle) => {
            let told = |numbers: Vec<String>| numbers.join(" ");
            let operations = told(circle.operations.iter().map(usize::to_string).collect());
            format!("circle {operations} by {}", told(circle.rules.iter().map(u8::to_string).collect()))
        }
        None => told_pairs(&last_round(trace, model, &[]).chains),
    }
}

/// None where the words are not of the form or a line of the text is refused.
fn told_session(model: &str, script: &[&str]) -> Option<String> {
    let trace = read_lines(&standard_input().ok()?).ok()?;
    answers(&trace, model.parse().ok()?, script)
}
