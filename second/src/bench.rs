//! The program at the bench: what it reads, and its whole output.

use crate::desk::Page;
use crate::reader::MOST_TEXT;
use std::io::{self, Read};

/// Up to one byte more than a text may have, which is enough to see that it is too long.
pub fn standard_input() -> io::Result<Vec<u8>> {
    let mut text = Vec::new();
    io::stdin().lock().take(MOST_TEXT as u64 + 1).read_to_end(&mut text)?;
    Ok(text)
}

pub fn output(text: &[u8], most_steps: u64) -> String {
    Page::new(text, most_steps).output()
}
