//! `otter import`: traces in another checker's form.

use crate::show::write;
use crate::status::{self, Done};
use clap::ValueEnum;
use serde_json::json;
use std::collections::BTreeMap;
use std::io::{self, Write};
use std::path::{Path, PathBuf};
use wheelotter::RECORDS;

/// Bring in a trace of another form: the text on standard output, and a map back
///
/// Axe's form is that of source document 003: stamps and comments are dropped, <..> and {..} are both a swap. Cores, addresses and values stay
/// where they fit, and are numbered through by first appearance where they do not; 0 stays 0. What cannot be brought in is said by line, and
/// nothing is written.
///
/// Without the stamps WMO keeps fewer pairs than Axe's: a fault found here is one there, but what is good under WMO here may be a fault there.
#[derive(clap::Args)]
pub struct Options {
    /// The trace; - is standard input
    file: PathBuf,
    /// Its form
    #[arg(long, value_enum)]
    from: Form,
    /// Write the map back to OUT as JSON: what each new number was, and of each record the old line
    #[arg(long, value_name = "OUT")]
    map: Option<PathBuf>,
}

#[derive(Clone, Copy, PartialEq, Eq, ValueEnum)]
enum Form {
    Axe,
}

/// Bounds of a text.
const CORES: usize = 8;
const ADDRESSES: usize = 16;
const VALUES: u64 = 65536;

/// What a line of the old text does, in its own numbers.
struct Old {
    line: usize,
    core: u64,
    address: u64,
    read: Option<u64>,
    written: Option<u64>,
}

/// A line without its comment and stamps; None where nothing is left.
fn stripped(line: &str) -> Option<&str> {
    let line = line.split('#').next().unwrap_or_default();
    let line = line.split('@').next().unwrap_or_default().trim();
    (!line.is_empty()).then_some(line)
}

/// `M[address] OP value`.
fn access(part: &str, op: &str) -> Option<(u64, u64)> {
    let (place, value) = part.split_once(op)?;
    let address = place.trim().strip_prefix("M[")?.strip_suffix(']')?;
    Some((address.trim().parse().ok()?, value.trim().parse().ok()?))
}

/// One line of Axe.
fn old(line: usize, text: &str) -> Option<Old> {
    let (core, body) = text.split_once(':')?;
    let (core, body) = (core.trim().parse().ok()?, body.trim());
    let record = |address, read, written| Some(Old { line, core, address, read, written });
    if body == "sync" {
        return record(0, None, None);
    }
    let swap = [('<', '>'), ('{', '}')].into_iter().find_map(|(open, close)| body.strip_prefix(open)?.strip_suffix(close));
    if let Some(swap) = swap {
        let (load, store) = swap.split_once(';')?;
        let ((place, read), (same, written)) = (access(load, "==")?, access(store, ":=")?);
        return if place == same { record(place, Some(read), Some(written)) } else { None };
    }
    if let Some((address, read)) = access(body, "==") {
        return record(address, Some(read), None);
    }
    let (address, written) = access(body, ":=")?;
    record(address, None, Some(written))
}

/// New numbers for old ones: themselves where all fit, else by first appearance, from a number on.
#[derive(Default)]
struct Numbers {
    old: Vec<u64>,
    kept: bool,
}

impl Numbers {
    /// Of all the old numbers; `fit` says whether they may stay.
    fn of(old: impl Iterator<Item = u64>, first: &[u64], fit: impl Fn(&[u64]) -> bool) -> Numbers {
        let mut seen = first.to_vec();
        for number in old {
            if !seen.contains(&number) {
                seen.push(number);
            }
        }
        let mut sorted = seen.clone();
        sorted.sort();
        let kept = fit(&sorted);
        Numbers { old: if kept { sorted } else { seen }, kept }
    }

    fn new(&self, old: u64) -> u64 {
        match self.kept {
            true => old,
            false => self.old.iter().position(|number| *number == old).expect("all were seen") as u64,
        }
    }
}

/// The whole renumbering: cores, addresses, and the values of each address.
struct Map {
    cores: Numbers,
    addresses: Numbers,
    values: BTreeMap<u64, Numbers>,
}

impl Map {
    fn of(records: &[Old]) -> Map {
        let cores =
            Numbers::of(records.iter().map(|old| old.core), &[], |cores| cores.iter().enumerate().all(|(i, core)| *core == i as u64));
        let accesses = || records.iter().filter(|old| old.read.or(old.written).is_some());
        let addresses = Numbers::of(accesses().map(|old| old.address), &[], |all| all.iter().all(|address| *address < ADDRESSES as u64));
        let values_at = |address: u64| {
            let values = accesses().filter(move |old| old.address == address).flat_map(|old| old.read.into_iter().chain(old.written));
            Numbers::of(values, &[0], |values| values.iter().all(|value| *value < VALUES))
        };
        let values = addresses.old.iter().map(|address| (*address, values_at(*address))).collect();
        Map { cores, addresses, values }
    }

    /// A record as a line of ours.
    fn line(&self, old: &Old) -> String {
        let (core, place) = (self.cores.new(old.core), || self.addresses.new(old.address));
        let value = |value: u64| self.values[&old.address].new(value);
        match (old.read, old.written) {
            (None, None) => format!("{core}: sync"),
            (Some(read), None) => format!("{core}: M[{}] == {}", place(), value(read)),
            (None, Some(written)) => format!("{core}: M[{}] := {}", place(), value(written)),
            (Some(read), Some(written)) => format!("{core}: {{ M[{0}] == {1}; M[{0}] := {2} }}", place(), value(read), value(written)),
        }
    }

    /// What each new number was. Numbers that stayed stand for themselves.
    fn json(&self, records: &[Old]) -> String {
        let pairs = |numbers: &Numbers| -> BTreeMap<u64, u64> { numbers.old.iter().map(|old| (numbers.new(*old), *old)).collect() };
        let values: BTreeMap<u64, _> = self.values.iter().map(|(address, values)| (self.addresses.new(*address), pairs(values))).collect();
        let lines: Vec<usize> = records.iter().map(|old| old.line).collect();
        json!({"cores": pairs(&self.cores), "addresses": pairs(&self.addresses), "values": values, "lines": lines}).to_string() + "\n"
    }
}

/// The first record that brings one number more than there is room for.
fn too_many(records: &[Old], of: impl Fn(&Old) -> Option<u64>, most: usize, what: &str) -> Option<String> {
    let mut seen = Vec::new();
    for old in records {
        if let Some(number) = of(old).filter(|number| !seen.contains(number)) {
            seen.push(number);
        }
        if seen.len() > most {
            return Some(format!("line {}: more than {most} {what}", old.line));
        }
    }
    None
}

/// Why the records do not fit into our bounds, by line.
fn unfit(records: &[Old]) -> Vec<String> {
    let address = |old: &Old| old.read.or(old.written).map(|_| old.address);
    let mut wrong: Vec<String> =
        records.get(RECORDS).map(|old| format!("line {}: more than {RECORDS} records", old.line)).into_iter().collect();
    wrong.extend(too_many(records, |old| Some(old.core), CORES, "cores"));
    wrong.extend(too_many(records, address, ADDRESSES, "addresses"));
    let zeros = records.iter().filter(|old| old.written == Some(0));
    wrong.extend(zeros.map(|old| format!("line {}: 0 is written, with which every address begins", old.line)));
    wrong
}

/// The records of an Axe trace; every line that is none, and every bound that is passed.
fn axe(text: &str) -> Result<Vec<Old>, Vec<String>> {
    let mut records = Vec::new();
    let mut wrong = Vec::new();
    for (i, line) in text.lines().enumerate() {
        match stripped(line).map(|body| old(i + 1, body)) {
            None => {}
            Some(Some(old)) => records.push(old),
            Some(None) => wrong.push(format!("line {}: not a line of Axe: {line}", i + 1)),
        }
    }
    if wrong.is_empty() {
        wrong = unfit(&records);
    }
    if wrong.is_empty() {
        return Ok(records);
    }
    Err(wrong)
}

/// The new text, which the library must take; what it turns back is said by the old line.
fn brought_in(records: &[Old], map: &Map) -> Result<String, String> {
    let text: String = records.iter().map(|old| map.line(old) + "\n").collect();
    match wheelotter::check(text.as_bytes()) {
        Ok(()) => Ok(text),
        Err(refusal) => {
            let line = refusal.line.checked_sub(1).map_or(0, |record| records[record].line);
            Err(format!("line {line}: {} ({})", refusal.answer as u8, crate::meaning::meaning(refusal.answer)))
        }
    }
}

fn told(path: &Path, wrong: &[String]) -> u8 {
    wrong.iter().for_each(|line| eprintln!("otter: {}: {line}", path.display()));
    status::UNJUDGED
}

pub fn import(options: &Options) -> Done {
    let Form::Axe = options.from;
    let bytes = if options.file == Path::new("-") { io::read_to_string(io::stdin()) } else { std::fs::read_to_string(&options.file) };
    let text = bytes.map_err(|error| format!("{}: unreadable: {error}", options.file.display()))?;
    let records = match axe(&text) {
        Ok(records) => records,
        Err(wrong) => return Ok(told(&options.file, &wrong)),
    };
    let map = Map::of(&records);
    let new = match brought_in(&records, &map) {
        Ok(new) => new,
        Err(wrong) => return Ok(told(&options.file, &[wrong])),
    };
    if let Some(out) = &options.map {
        write(out, map.json(&records).as_bytes())?;
    }
    io::stdout().lock().write_all(new.as_bytes())?;
    let stamped = text.lines().filter(|line| line.split('#').next().is_some_and(|line| line.contains('@'))).count();
    if stamped > 0 {
        eprintln!(
            "otter: {}: stamps dropped in {stamped} lines: what is good under WMO here may be a fault with them",
            options.file.display()
        );
    }
    Ok(status::KEPT)
}
