//! A good text as records, for pictures and sentences. No verdict comes from here.

use std::fmt;

/// A load reads, a store writes, a swap does both, a fence neither.
#[derive(Clone, Copy, Debug, PartialEq, Eq)]
pub struct Record {
    pub core: usize,
    pub address: usize,
    pub read: Option<u32>,
    pub written: Option<u32>,
}

/// The records of a text that the library took; its init lines are none.
pub fn records(text: &str) -> Vec<Record> {
    text.lines().filter(|line| !line.starts_with("init")).map(record).collect()
}

/// The numbers stand in the order core, address, value, and a swap's two more behind.
fn record(line: &str) -> Record {
    let numbers: Vec<u32> = line.split(|byte: char| !byte.is_ascii_digit()).filter_map(|word| word.parse().ok()).collect();
    let (read, written) = match (line.contains("=="), line.contains(":=")) {
        (true, true) => (Some(numbers[2]), Some(numbers[4])),
        (true, false) => (Some(numbers[2]), None),
        (false, true) => (None, Some(numbers[2])),
        (false, false) => (None, None),
    };
    Record { core: numbers[0] as usize, address: numbers.get(1).map_or(0, |address| *address as usize), read, written }
}

impl fmt::Display for Record {
    /// As in the text, without the core.
    fn fmt(&self, f: &mut fmt::Formatter<'_>) -> fmt::Result {
        let place = self.address;
        match (self.read, self.written) {
            (Some(read), Some(written)) => write!(f, "{{ M[{place}] == {read}; M[{place}] := {written} }}"),
            (Some(read), None) => write!(f, "M[{place}] == {read}"),
            (None, Some(written)) => write!(f, "M[{place}] := {written}"),
            (None, None) => write!(f, "sync"),
        }
    }
}

/// The test program of a trace: the text without what was read.
pub fn program(text: &[u8]) -> Vec<u8> {
    let mut program = Vec::with_capacity(text.len());
    for byte in text {
        if !(byte.is_ascii_digit() && read_before(&program)) {
            program.push(*byte);
        }
    }
    program
}

/// Whether a number behind these bytes is one that was read.
fn read_before(program: &[u8]) -> bool {
    program.ends_with(b"== ")
}

#[cfg(test)]
mod tests {
    use super::program;

    #[test]
    fn a_program_has_no_reads() {
        assert_eq!(
            program(b"0: M[1] := 12\n0: M[1] == 12\n1: { M[1] == 12; M[1] := 3 }\n"),
            b"0: M[1] := 12\n0: M[1] == \n1: { M[1] == ; M[1] := 3 }\n"
        );
    }
}
