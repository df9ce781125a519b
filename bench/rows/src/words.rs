//! The same loop as one writes it in Rust, a whole word at a time.

pub fn chains<const RECORDS: usize, const WORDS: usize>(rows: &mut [u64]) {
    if rows.len() != RECORDS * WORDS {
        return;
    }
    for k in 0..RECORDS {
        for x in 0..RECORDS {
            if rows[x * WORDS + k / 64] >> (k % 64) & 1 == 1 {
                for i in 0..WORDS {
                    rows[x * WORDS + i] |= rows[k * WORDS + i];
                }
            }
        }
    }
}
