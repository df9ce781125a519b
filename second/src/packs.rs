//! The entries of the library over packed files: a text's file and a file's text, each behind two bytes that say how long it is, and what is wrong
//! with a file.

use crate::desk::{open_on, put_number, Page, DONE, NO_ROOM};
use crate::packed::{file_of, read};
use crate::trace::text_of;

/// Where the file or the text begins behind its length.
pub const BYTES_AT: usize = 2;

fn lay(bytes: &[u8], lent: &mut [u8]) -> u8 {
    let Some(place) = lent.get_mut(..BYTES_AT + bytes.len()) else { return NO_ROOM };
    put_number(place, bytes.len());
    place[BYTES_AT..].copy_from_slice(bytes);
    DONE
}

pub fn pack(page: &Page<'_>, lent: &mut [u8]) -> u8 {
    page.trace().map_or_else(|| page.number(), |trace| lay(&file_of(trace), lent))
}

pub fn unpack(file: &[u8], lent: &mut [u8]) -> u8 {
    read(file).map_or_else(|refusal| refusal.number, |trace| lay(&text_of(&trace), lent))
}

pub fn number(file: &[u8]) -> u8 {
    read(file).map_or_else(|refusal| refusal.number, |_| DONE)
}

/// A session opened on a file, which may have lost no core, as a text may not.
pub fn open(file: &[u8], model: u8, lent: &mut [u8]) -> u8 {
    open_on(read(file).as_ref().map_err(|refusal| refusal.number), model, lent).0
}

pub fn line(file: &[u8]) -> usize {
    read(file).map_or_else(|refusal| refusal.line, |_| 0)
}
