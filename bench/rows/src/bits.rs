//! The closing as crates/rows had it before request 3: row k is given to row x bit by bit.

fn has<const WORDS: usize>(rows: &[u64], x: usize, y: usize) -> bool {
    let word = rows[x * WORDS + y / 64] >> (y % 64);
    word % 2 == 1
}

fn mark<const WORDS: usize>(rows: &mut [u64], x: usize, y: usize) {
    let i = x * WORDS + y / 64;
    rows[i] |= 1 << (y % 64);
}

fn join<const RECORDS: usize, const WORDS: usize>(rows: &mut [u64], x: usize, k: usize) {
    for y in 0..RECORDS {
        if has::<WORDS>(rows, k, y) {
            mark::<WORDS>(rows, x, y);
        }
    }
}

pub fn chains<const RECORDS: usize, const WORDS: usize>(rows: &mut [u64]) {
    if rows.len() != RECORDS * WORDS {
        return;
    }
    for k in 0..RECORDS {
        for x in 0..RECORDS {
            if has::<WORDS>(rows, x, k) {
                join::<RECORDS, WORDS>(rows, x, k);
            }
        }
    }
}
