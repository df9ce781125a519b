//! Texts at the edges of what the reader takes.

use super::firsts::{self, init_lines};
use super::threads;
use crate::chance::Chance;
use crate::machine::{run, Shape};
use crate::reader::MOST_TEXT;
use crate::trace::{Record, LAST_ADDRESS, LAST_THREAD, MOST_RECORDS};
use std::collections::BTreeSet;

/// Each entry: a line that is turned back, and the nearest that is not (unless what stands above it, or how long the text is, says no).
const LINES: [(&str, &str); 58] = [
    ("8: M[0] := 9", "7: M[0] := 9"),
    ("8: sync", "7: sync"),
    ("8: { M[0] == 0; M[0] := 9 }", "7: { M[0] == 0; M[0] := 9 }"),
    ("0: M[16] == 0", "0: M[15] == 0"),
    ("0: M[16] := 9", "0: M[15] := 9"),
    ("0: { M[16] == 0; M[16] := 9 }", "0: { M[15] == 0; M[15] := 9 }"),
    ("0: { M[15] == 0; M[16] := 9 }", "0: { M[15] == 0; M[15] := 9 }"),
    ("0: M[0] := 65536", "0: M[0] := 65535"),
    ("0: M[0] == 65536", "0: M[0] == 65535"),
    ("0: { M[0] == 65536; M[0] := 9 }", "0: { M[0] == 65535; M[0] := 9 }"),
    ("0: { M[0] == 0; M[0] := 65536 }", "0: { M[0] == 0; M[0] := 65535 }"),
    ("0: { M[0] == 0; M[1] := 9 }", "0: { M[1] == 0; M[1] := 9 }"),
    ("0: M[0] := 0", "0: M[0] := 1"),
    ("0: { M[0] == 1; M[0] := 0 }", "0: { M[0] == 0; M[0] := 1 }"),
    ("00: M[0] := 9", "0: M[0] := 9"),
    ("0: M[01] := 9", "0: M[1] := 9"),
    ("0: M[00] == 0", "0: M[0] == 0"),
    ("0: M[0] == 00", "0: M[0] == 0"),
    ("0: M[0] := 09", "0: M[0] := 9"),
    ("0: M[0] := 00", "0: M[0] := 1"),
    ("0 : M[0] := 9", "0: M[0] := 9"),
    ("0:M[0] := 9", "0: M[0] := 9"),
    ("0: M[0]:= 9", "0: M[0] := 9"),
    ("0: M[0] := 9 ", "0: M[0] := 9"),
    (" 0: M[0] := 9", "0: M[0] := 9"),
    ("0:  M[0] := 9", "0: M[0] := 9"),
    ("0: M[0] = 9", "0: M[0] == 9"),
    ("0: m[0] == 9", "0: M[0] == 9"),
    ("0: M[] == 9", "0: M[0] == 9"),
    ("0: M[0] == ", "0: M[0] == 0"),
    (": M[0] == 0", "0: M[0] == 0"),
    ("0: M(0) == 0", "0: M[0] == 0"),
    ("0: Sync", "0: sync"),
    ("0: sync ", "0: sync"),
    ("0: syn", "0: sync"),
    ("0: syncs", "0: sync"),
    ("0: { M[0] == 0; M[0] := 9", "0: { M[0] == 0; M[0] := 9 }"),
    ("0: { M[0] == 0;M[0] := 9 }", "0: { M[0] == 0; M[0] := 9 }"),
    ("0: { M[0] := 9; M[0] == 0 }", "0: { M[0] == 0; M[0] := 9 }"),
    ("", "0: sync"),
    ("init: M[16] := 7", "init: M[15] := 7"),
    ("init: M[0] := 65536", "init: M[0] := 65535"),
    ("init: M[0] := 184467440737095516150", "init: M[0] := 0"),
    ("init: M[03] := 7", "init: M[3] := 7"),
    ("init: M[3] := 07", "init: M[3] := 7"),
    ("init: M[3] := 00", "init: M[3] := 0"),
    ("init: M[3] := ", "init: M[3] := 0"),
    ("init: M[] := 7", "init: M[0] := 7"),
    ("init: M[3] == 7", "init: M[3] := 7"),
    ("init:M[3] := 7", "init: M[3] := 7"),
    ("init: M[3]:= 7", "init: M[3] := 7"),
    ("init: M[3] := 7 ", "init: M[3] := 7"),
    (" init: M[3] := 7", "init: M[3] := 7"),
    ("Init: M[3] := 7", "init: M[3] := 7"),
    ("ini: M[3] := 7", "init: M[3] := 7"),
    ("inits: M[3] := 7", "init: M[3] := 7"),
    ("init: { M[3] == 0; M[3] := 7 }", "init: M[3] := 7"),
    ("init: sync", "init: M[3] := 7"),
];

/// A few lines of a machine's run, to put others among.
fn good_lines(chance: &mut Chance, records: usize) -> Vec<String> {
    let (threads, addresses) = (chance.between(1, 3), chance.between(1, 3));
    let shape = Shape {
        records,
        threads: chance.different(threads, LAST_THREAD + 1),
        addresses: chance.different(addresses, LAST_ADDRESS + 1),
        stores: 40,
        late_stores: 40,
        swaps: 10,
        fences: 10,
        drains: 20,
        own: 0,
        home: 0,
        firsts: firsts::drawn(chance),
    };
    let records = run(chance, &shape, true);
    let mut lines = init_lines(chance, &shape.firsts);
    lines.extend(threads::numbered(chance, &records).iter().map(Record::to_string));
    lines
}

/// Mostly with a record of every thread, so that lines of any thread leave no gap.
fn with_threads(chance: &mut Chance, mut lines: Vec<String>) -> Vec<String> {
    if chance.percent(70) {
        let inits = lines.iter().take_while(|line| line.starts_with(INIT)).count();
        let place = *chance.of(&[inits, lines.len()]);
        lines.splice(place..place, threads::all());
    }
    lines
}

fn joined(lines: &[String]) -> Vec<u8> {
    lines.iter().flat_map(|line| [line.as_str(), "\n"]).collect::<String>().into_bytes()
}

pub(super) fn edges(chance: &mut Chance) -> Vec<u8> {
    let count = chance.between(0, 5);
    let lines = good_lines(chance, count);
    let mut lines = with_threads(chance, lines);
    for _ in 0..if chance.percent(80) { 1 } else { 2 } {
        let (bad, good) = *chance.of(&LINES);
        let line = if chance.percent(60) { bad } else { good };
        let place = some_place(chance, &lines, line);
        lines.insert(place, line.to_string());
    }
    if chance.percent(25) {
        // A value that is there already, at the same address or at another; or an init line twice.
        let writers: Vec<String> = lines.iter().filter(|line| line.contains(" := ")).cloned().collect();
        if !writers.is_empty() {
            let mut line = chance.of(&writers).clone();
            if !line.starts_with(INIT) || chance.percent(60) {
                let (other, thread) = (chance.below(16).to_string(), chance.below(8));
                let address = if chance.percent(50) { digits_after(&line, "M[") } else { other };
                line = format!("{thread}: M[{address}] := {}", digits_after(&line, ":= "));
            }
            let place = some_place(chance, &lines, &line);
            lines.insert(place, line);
        }
    }
    let mut text = joined(&lines);
    if chance.percent(10) {
        text.pop();
    }
    text
}

/// What an init line begins with.
const INIT: &str = "init";

/// Mostly where such a line belongs, before the records or among them; at times anywhere.
fn some_place(chance: &mut Chance, lines: &[String], line: &str) -> usize {
    let inits = lines.iter().take_while(|line| line.starts_with(INIT)).count();
    match chance.below(10) {
        0 => chance.between(0, lines.len()),
        _ if line.starts_with(INIT) => chance.between(0, inits),
        _ => chance.between(inits, lines.len()),
    }
}

fn digits_after(line: &str, word: &str) -> String {
    let from = line.rfind(word).map_or(line.len(), |at| at + word.len());
    line[from..].chars().take_while(char::is_ascii_digit).collect()
}

const THREADS: [&str; 8] = ["0", "1", "7", "8", "9", "10", "00", "4294967296"];
const ADDRESSES: [&str; 9] = ["0", "1", "15", "16", "17", "150", "01", "256", "18446744073709551616"];
const NUMBERS: [&str; 14] =
    ["0", "1", "2", "9", "10", "65534", "65535", "65536", "65537", "99999", "100000", "00", "065535", "18446744073709551617"];

/// The first few choices are good ones: most numbers of a line are, so that each refusal is seen alone and with others.
fn drawn(chance: &mut Chance, choices: &[&'static str], good: usize) -> &'static str {
    let among = if chance.percent(85) { good } else { choices.len() };
    choices[chance.below(among)]
}

pub(super) fn numbers(chance: &mut Chance) -> Vec<u8> {
    let lines: Vec<String> = (0..chance.between(1, 6)).map(|_| line_of_numbers(chance)).collect();
    let lines = with_threads(chance, lines);
    let mut text = joined(&lines);
    if chance.percent(5) {
        text.pop();
    }
    text
}

fn line_of_numbers(chance: &mut Chance) -> String {
    let thread = drawn(chance, &THREADS, 3);
    let address = drawn(chance, &ADDRESSES, 3);
    let second = if chance.percent(80) { address } else { drawn(chance, &ADDRESSES, 3) };
    let (read, written) = (drawn(chance, &NUMBERS, 7), drawn(chance, &NUMBERS, 7));
    match chance.below(7) {
        0 => format!("{thread}: sync"),
        1 | 2 => format!("{thread}: M[{address}] == {read}"),
        3 | 4 => format!("{thread}: M[{address}] := {written}"),
        _ => format!("{thread}: {{ M[{address}] == {read}; M[{second}] := {written} }}"),
    }
}

const GIVEN: [&str; 7] = ["0", "0", "1", "2", "3", "15", "16"];
const FIRST: [&str; 8] = ["0", "0", "1", "2", "9", "65535", "65536", "00"];

/// Init lines, mostly of other addresses each, often one among or behind the records; and records that write and read what stands in them, and 0.
pub(super) fn inits(chance: &mut Chance) -> Vec<u8> {
    let mut lines: Vec<String> = (0..chance.below(5)).map(|_| line_of_init(chance)).collect();
    if chance.percent(70) {
        let mut seen = BTreeSet::new();
        lines.retain(|line| seen.insert(digits_after(line, "M[")));
    }
    for _ in 0..chance.below(6) {
        let (thread, address) = (drawn(chance, &THREADS, 3), *chance.of(&["0", "1", "2", "3"]));
        let (read, written) = (*chance.of(&FIRST[..6]), *chance.of(&FIRST[..5]));
        lines.push(match chance.below(6) {
            0 => format!("{thread}: {{ M[{address}] == {read}; M[{address}] := {written} }}"),
            1 | 2 => format!("{thread}: M[{address}] := {written}"),
            3 => format!("{thread}: sync"),
            _ => format!("{thread}: M[{address}] == {read}"),
        });
    }
    if chance.percent(25) {
        let place = chance.between(0, lines.len());
        lines.insert(place, line_of_init(chance));
    }
    let lines = with_threads(chance, lines);
    let mut text = joined(&lines);
    if chance.percent(6) {
        text.pop();
    }
    text
}

fn line_of_init(chance: &mut Chance) -> String {
    format!("init: M[{}] := {}", drawn(chance, &GIVEN, 6), drawn(chance, &FIRST, 6))
}

/// Each thread up to some one has a record or more, or a few have none; fences and init lines among them; at times a line is bad as well.
pub(super) fn lost(chance: &mut Chance) -> Vec<u8> {
    let mut threads: Vec<usize> = (0..chance.between(0, LAST_THREAD as usize + 1)).collect();
    let gone = *chance.of(&[0, 0, 1, 1, 1, 2]);
    for _ in 0..gone.min(threads.len()) {
        threads.remove(chance.below(threads.len()));
    }
    let mut lines = Vec::new();
    for thread in threads {
        (0..chance.between(1, 2)).for_each(|_| lines.push(some_line(chance, thread)));
    }
    chance.shuffle(&mut lines);
    for _ in 0..*chance.of(&[0, 0, 1]) {
        lines.insert(0, line_of_init(chance));
    }
    if chance.percent(15) {
        let (bad, good) = *chance.of(&LINES);
        let place = some_place(chance, &lines, bad);
        lines.insert(place, if chance.percent(70) { bad } else { good }.to_string());
    }
    let mut text = joined(&lines);
    if chance.percent(4) {
        text.pop();
    }
    text
}

fn some_line(chance: &mut Chance, thread: usize) -> String {
    let written = 1 + chance.below(40);
    match chance.below(4) {
        0 | 1 => format!("{thread}: sync"),
        2 => format!("{thread}: M[{}] == 0", chance.below(4)),
        _ => format!("{thread}: M[{}] := {written}", chance.below(16)),
    }
}

pub(super) fn ranks(chance: &mut Chance) -> Vec<u8> {
    let above = *chance.of(&[0, 1, 3, MOST_RECORDS - 1, MOST_RECORDS, MOST_RECORDS, MOST_RECORDS, MOST_RECORDS]);
    // Then 1000 is what may not be written, and 0 may be.
    let mut lines = if chance.percent(40) { vec!["init: M[3] := 1000".to_string()] } else { vec![] };
    lines.extend((0..above).map(|i| format!("{}: M[3] := {}", i % 8, 7 + i)));
    let place = if chance.percent(90) { lines.len() } else { chance.between(0, lines.len()) };
    lines.insert(place, line_of_faults(chance));
    if chance.percent(20) {
        lines.push(line_of_faults(chance));
    }
    let mut text = joined(&lines);
    if chance.percent(8) {
        text.pop();
    }
    text
}

/// Each fault by chance and apart from the others. The value 7 at address 3 was written before.
fn line_of_faults(chance: &mut Chance) -> String {
    let thread = if chance.percent(12) { "8" } else { "0" };
    let first = if chance.percent(6) { "16" } else { "3" };
    let second = if chance.percent(30) { *chance.of(&["2", "2", "16"]) } else { first };
    let read = if chance.percent(8) { "65536" } else { "7" };
    let written = *chance.of(&["7", "7", "7", "0", "0", "1000", "1000", "65536"]);
    let mut line = match chance.below(12) {
        0 => format!("{thread}: sync"),
        1 => format!("{thread}: M[{first}] == {read}"),
        2..=4 => format!("{thread}: M[{first}] := {written}"),
        5 | 6 => format!("init: M[{second}] := {written}"),
        _ => format!("{thread}: {{ M[{first}] == {read}; M[{second}] := {written} }}"),
    };
    if chance.percent(10) {
        line.push(' ');
    }
    if chance.percent(8) {
        line = format!("{line:width$}", width = chance.between(80, 82));
    }
    line
}

pub(super) fn sizes(chance: &mut Chance) -> Vec<u8> {
    match chance.below(4) {
        0 => long_line(chance),
        1 => many_records(chance),
        2 => long_text(chance),
        _ => feed_missing(chance),
    }
}

/// A line of 79 to 82 bytes: a number of many digits, or something of no form.
fn long_line(chance: &mut Chance) -> Vec<u8> {
    let count = chance.between(0, 3);
    let mut lines = good_lines(chance, count);
    let length = chance.between(79, 82);
    let (front, back) = *chance.of(&[
        ("0: M[0] := ", ""),
        ("0: M[", "] == 0"),
        ("", ": sync"),
        ("0: { M[0] == 0; M[0] := ", " }"),
        ("init: M[0] := ", ""),
        ("init: M[", "] := 0"),
        ("x", ""),
    ]);
    let filler = *chance.of(&["1", "0", "9", " "]);
    let line = format!("{front}{}{back}", filler.repeat(length - front.len() - back.len()));
    let place = some_place(chance, &lines, &line);
    lines.insert(place, line);
    let mut text = joined(&lines);
    if chance.percent(25) {
        text.pop();
    }
    text
}

/// One record less than there may be, to two more; the ones around the edge may be bad in some other way as well.
fn many_records(chance: &mut Chance) -> Vec<u8> {
    let count = chance.between(MOST_RECORDS - 1, MOST_RECORDS + 2);
    let mut lines: Vec<String> = match chance.below(3) {
        0 => vec!["0: sync".to_string(); count],
        1 => (0..count).map(|i| format!("{}: M[{}] := {}", i % 8, i % 3, i + 1)).collect(),
        _ => good_lines(chance, count),
    };
    if chance.percent(60) {
        // Init lines are no records.
        let place = lines.len() - count + chance.between(MOST_RECORDS - 2, count - 1);
        let (bad, good) = *chance.of(&LINES);
        lines[place] = match chance.below(4) {
            0 => good.to_string(),
            1 => lines[chance.below(place)].clone(),
            _ => bad.to_string(),
        };
    }
    let mut text = joined(&lines);
    if chance.percent(10) {
        text.pop();
    }
    text
}

/// Two bytes less than there may be, to two more, and far more; of good lines, of one long line, of feeds.
fn long_text(chance: &mut Chance) -> Vec<u8> {
    let (last, past) = (MOST_TEXT, MOST_TEXT + 1);
    let length = *chance.of(&[last - 2, last - 1, last, last, past, past, past + 1, last + 808, 2 * last]);
    let piece = *chance.of(&["0: sync\n", "0: M[0] == 0\n", "\n", "0", "0: M[0] := 1\n", "\0", "init: M[0] := 1\n"]);
    let mut text: Vec<u8> = piece.bytes().cycle().take(length).collect();
    if chance.percent(50) {
        text[length - 1] = b'\n';
    }
    text
}

fn feed_missing(chance: &mut Chance) -> Vec<u8> {
    let count = chance.between(1, 6);
    let mut text = joined(&good_lines(chance, count));
    match chance.below(4) {
        0 => drop(text.pop()),
        1 => text.push(b'\n'),
        2 => text.insert(text.len() - 1, b'\r'),
        _ => text.truncate(chance.below(text.len())),
    }
    text
}

/// Bytes at the edges of the classes, and those that a line is made of.
const ODD: &[u8] = b"0123456789 :=;[]{}MsyncSMmit\n\r\t\x00/@AZaz`\x7f\x80\xff._-";

pub(super) fn damaged(chance: &mut Chance) -> Vec<u8> {
    let mut text = if chance.percent(60) {
        let inits: &[u8] = if chance.percent(50) { b"init: M[3] := 7\ninit: M[15] := 0\n" } else { b"" };
        [inits, b"0: M[3] := 31\n1: M[3] == 31\n0: { M[3] == 31; M[3] := 178 }\n2: sync\n"].concat()
    } else {
        let count = chance.between(1, 5);
        joined(&good_lines(chance, count))
    };
    let times = *chance.of(&[1, 1, 1, 1, 2, 3]);
    for _ in 0..times {
        damage(chance, &mut text);
    }
    text
}

/// Every number has its edge in one of these: lines and bounds, ranks, sizes, numbers, init lines.
pub(super) fn edges_damaged(chance: &mut Chance) -> Vec<u8> {
    let draw = *chance.of(&[edges, edges, ranks, sizes, numbers, inits]);
    let mut text = draw(chance);
    damage(chance, &mut text);
    text
}

fn damage(chance: &mut Chance, text: &mut Vec<u8>) {
    let byte = if chance.percent(90) { *chance.of(ODD) } else { chance.below(256) as u8 };
    let place = chance.between(0, text.len());
    match chance.below(4) {
        0 => text.insert(place, byte),
        1 if place < text.len() => drop(text.remove(place)),
        2 if place + 1 < text.len() => text.swap(place, place + 1),
        _ if place < text.len() => text[place] = byte,
        _ => text.push(byte),
    }
}

const PIECES: [&str; 27] = [
    "0",
    "1",
    "7",
    "8",
    "15",
    "16",
    "65535",
    "65536",
    ": ",
    ":",
    " ",
    "M[",
    "]",
    " := ",
    " == ",
    "{ ",
    " }",
    "; ",
    "sync",
    "\n",
    "\n",
    "0: sync\n",
    "0: M[0] == 0\n",
    "0: M[0] := ",
    "init: ",
    "init: M[0] := 0\n",
    "init: M[1] := ",
];

pub(super) fn bytes(chance: &mut Chance) -> Vec<u8> {
    match chance.below(4) {
        0 => (0..chance.below(40)).map(|_| chance.below(256) as u8).collect(),
        1 => (0..chance.below(200)).map(|_| *chance.of(ODD)).collect(),
        2 => (0..chance.between(MOST_TEXT - 12, MOST_TEXT + 8)).map(|_| *chance.of(ODD)).collect(),
        _ => (0..chance.below(30)).map(|_| *chance.of(&PIECES)).collect::<String>().into_bytes(),
    }
}
