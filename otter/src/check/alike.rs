//! Faults that look alike.

use crate::judged::Judged;
use crate::records::program;
use std::collections::HashMap;
use std::io::{self, Write};
use std::path::{Path, PathBuf};

/// How often a fault was seen, in words, and where first.
struct Seen {
    count: u64,
    words: String,
    first: PathBuf,
}

/// Faults by their test program and their verdicts, in the order in which they were first seen.
#[derive(Default)]
pub struct Alike {
    seen: Vec<Seen>,
    places: HashMap<(String, Vec<u8>), usize>,
}

impl Alike {
    pub fn take(&mut self, path: &Path, judged: &Judged, text: &[u8]) {
        let words = judged.words(true);
        let key = (words.clone(), program(text));
        let place = *self.places.entry(key).or_insert(self.seen.len());
        match self.seen.get_mut(place) {
            Some(seen) => seen.count += 1,
            None => self.seen.push(Seen { count: 1, words, first: path.to_path_buf() }),
        }
    }

    /// The most frequent first; among equals the one that was seen first.
    pub fn write(&mut self, out: &mut impl Write) -> io::Result<()> {
        self.seen.sort_by_key(|seen| std::cmp::Reverse(seen.count));
        for seen in &self.seen {
            writeln!(out, "{:>6} times {}, first in {}", seen.count, seen.words, seen.first.display())?;
        }
        Ok(())
    }
}
