//! Times one closing, of 64 rows and of 256, by three loops in one run: bit by bit, as crates/rows had it at first; the proved code of crates/rows
//! as it stands; and Rust's plain loop over words.
//!
//!     rows [RELATIONS]

mod bits;
mod words;

/// The proved code for so many records.
macro_rules! proved {
    ($name:ident, $records:expr) => {
        #[allow(dead_code, clippy::all)]
        mod $name {
            mod trace {
                pub const RECORDS: usize = $records;
            }
            include!(concat!(env!("OUT_DIR"), "/proved.rs"));
        }
    };
}

proved!(proved_64, 64);
proved!(proved_256, 256);

use std::hint::black_box;
use std::time::Instant;

type Close = fn(&mut [u64]);

/// Each closing is timed so often, and the best counts.
const TIMES: usize = 7;

/// Short closings are timed several at once.
const AT_ONCE: usize = 8;

fn main() {
    let relations = std::env::args().nth(1).and_then(|word| word.parse().ok()).unwrap_or(101);
    println!("| rows | bit by bit, us | proved code, us | Rust by words, us | proved / bit by bit | proved / Rust by words |");
    println!("|---|---|---|---|---|---|");
    row(64, relations, [bits::chains::<64, 1>, proved_64::chains, words::chains::<64, 1>]);
    row(256, relations, [bits::chains::<256, 4>, proved_256::chains, words::chains::<256, 4>]);
}

/// A line of the table: medians over the relations.
fn row(records: usize, relations: u64, loops: [Close; 3]) {
    let mut times = [const { Vec::new() }; 3];
    for seed in 1..=relations {
        let relation = relation(records, seed);
        let mut best = [f64::MAX; 3];
        for _ in 0..TIMES {
            let mut closed = Vec::new();
            for (close, best) in loops.iter().zip(&mut best) {
                let (rows, time) = timed(*close, &relation);
                *best = best.min(time);
                closed.push(rows);
            }
            assert!(closed.iter().all(|rows| *rows == closed[0]), "the loops differ");
        }
        for (list, best) in times.iter_mut().zip(best) {
            list.push(best);
        }
    }
    let [bits, proved, words] = times.map(median);
    println!("| {records} | {bits:.2} | {proved:.2} | {words:.2} | {:.3} | {:.2} |", proved / bits, proved / words);
}

/// What a loop makes of a relation, and in how many microseconds; the copies it works on are made beforehand.
fn timed(close: Close, relation: &[u64]) -> (Vec<u64>, f64) {
    let mut copies = vec![relation.to_vec(); AT_ONCE];
    let start = Instant::now();
    for rows in &mut copies {
        close(black_box(rows));
    }
    let time = start.elapsed().as_secs_f64() * 1e6 / AT_ONCE as f64;
    (copies.swap_remove(0), time)
}

fn median(mut times: Vec<f64>) -> f64 {
    times.sort_by(f64::total_cmp);
    times[times.len() / 2]
}

/// A relation as the rules draw it at first: eight cores, each in its own order, and as many pairs between them as there are records, all from a
/// lower number to a higher one.
fn relation(records: usize, seed: u64) -> Vec<u64> {
    let words = records / 64;
    let mut rows = vec![0; records * words];
    let mut put = |x: usize, y: usize| rows[x * words + y / 64] |= 1 << (y % 64);
    let mut state = seed;
    let mut below = |limit: usize| {
        state = state.wrapping_mul(6_364_136_223_846_793_005).wrapping_add(1_442_695_040_888_963_407);
        (state >> 33) as usize % limit
    };
    let cores: Vec<usize> = (0..records).map(|_| below(8)).collect();
    for x in 0..records {
        (x + 1..records).filter(|&y| cores[x] == cores[y]).for_each(|y| put(x, y));
        let (a, b) = (below(records), below(records));
        if a != b {
            put(a.min(b), a.max(b));
        }
    }
    rows
}
