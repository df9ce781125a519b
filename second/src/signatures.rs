//! What the loads of a test program saw, packed into numbers (document 02, request 13).
//!
//! A test program is a trace whose recorded reads are not looked at. A load or swap may have read the first value of its address, or what another
//! record wrote there, by record number; the place in that list is its digit. The loads of a thread, the first least, make words of 64 bits.

use crate::trace::{Trace, LAST_THREAD};

pub const NOT_WELL_FORMED: usize = 10;
pub const OUTSIDE: usize = 23;
pub const TOO_LARGE: usize = 24;
pub const WRONG_LENGTH: usize = 26;

/// 2 to the 64th, which a product may reach and not pass.
const PAST: u128 = 1 << 64;

/// Why nothing is packed or unpacked: the number, and for 23 and 24 the record or the word.
pub type Refused = (usize, usize);

/// The loads and swaps, by record number.
pub fn loads(trace: &Trace) -> Vec<usize> {
    (0..trace.count).filter(|&x| trace.places[x].read().is_some()).collect()
}

/// What a load may have read.
pub fn list(trace: &Trace, load: usize) -> Vec<u64> {
    let address = trace.places[load].address().expect("a load has an address");
    let writes = |&x: &usize| x != load && trace.places[x].address() == Some(address);
    let written = (0..trace.count).filter(writes).filter_map(|x| trace.places[x].written());
    std::iter::once(trace.first(address)).chain(written).collect()
}

/// The loads of each word, thread by thread: a new word where the product would pass 2 to the 64th.
pub fn layout(trace: &Trace) -> Vec<Vec<usize>> {
    let mut words: Vec<Vec<usize>> = Vec::new();
    for thread in 0..=LAST_THREAD {
        let mut product = PAST + 1;
        for load in loads(trace).into_iter().filter(|&x| trace.places[x].thread() == thread) {
            let range = list(trace, load).len() as u128;
            product *= range;
            if product > PAST {
                words.push(Vec::new());
                product = range;
            }
            words.last_mut().expect("a word is open").push(load);
        }
    }
    words
}

pub fn pack(trace: &Trace, reads: impl Fn(usize) -> u64) -> Result<Vec<u64>, Refused> {
    let digit = |load: usize| list(trace, load).iter().position(|&value| value == reads(load));
    if let Some(load) = loads(trace).into_iter().find(|&load| digit(load).is_none()) {
        return Err((OUTSIDE, load));
    }
    let word = |of: &Vec<usize>| {
        of.iter().rev().fold(0u128, |word, &load| word * list(trace, load).len() as u128 + digit(load).expect("listed") as u128)
    };
    Ok(layout(trace).iter().map(|of| u64::try_from(word(of)).expect("below the product")).collect())
}

/// What each load read, by record number.
pub fn unpack(trace: &Trace, words: &[u64]) -> Result<Vec<u64>, Refused> {
    let mut read = vec![0; trace.count];
    for (place, (of, &word)) in layout(trace).iter().zip(words).enumerate() {
        let mut left = word;
        for &load in of {
            let choices = list(trace, load);
            read[load] = choices[(left % choices.len() as u64) as usize];
            left /= choices.len() as u64;
        }
        if left != 0 {
            return Err((TOO_LARGE, place));
        }
    }
    Ok(loads(trace).into_iter().map(|load| read[load]).collect())
}

/// An answer in one number, as the library's entries give it.
pub fn code((number, place): Refused) -> usize {
    number + 256 * place
}

/// The reads of the trace itself, into lent words: 10 is for traces that are not well formed, then 26, then 23; nothing is written then.
pub fn pack_into(trace: &Trace, out: &mut [u64]) -> usize {
    if !trace.well_formed() {
        return NOT_WELL_FORMED;
    }
    if out.len() != layout(trace).len() {
        return WRONG_LENGTH;
    }
    match pack(trace, |load| trace.places[load].read().expect("a load reads")) {
        Ok(words) => out.copy_from_slice(&words),
        Err(refused) => return code(refused),
    }
    0
}

pub fn unpack_into(trace: &Trace, words: &[u64], out: &mut [u16]) -> usize {
    if !trace.well_formed() {
        return NOT_WELL_FORMED;
    }
    if words.len() != layout(trace).len() || out.len() != loads(trace).len() {
        return WRONG_LENGTH;
    }
    match unpack(trace, words) {
        Ok(reads) => out.iter_mut().zip(reads).for_each(|(place, value)| *place = value as u16),
        Err(refused) => return code(refused),
    }
    0
}
