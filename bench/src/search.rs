//! The search of crates/search, with its placements counted: ready operations only, three stops of the loop, dead sets remembered. The third stop tries
//! both sides of a few pairs too.

use simple::models::{kept, Model};
use simple::rules::{missing, rounds, source, writes_there};
use simple::{Record, Table, Words};

/// A set of records.
type Row = [u64; 4];

/// As many sets are remembered as in crates/search.
const SLOTS: u64 = 4093;

/// The third stop is asked once for a set, when the search below it has cost so many placements.
const PATIENCE: u64 = 64;

/// So many pairs of writers are tried by the third stop.
const TRIES: usize = 8;

pub struct Found {
    pub order: bool,
    pub placements: u64,
}

struct Search {
    operations: Row,
    /// What is held before each record.
    before: Vec<Row>,
    /// The other writers of each record's address.
    writers: Vec<Row>,
    sources: Vec<Option<usize>>,
    dead: Vec<Row>,
    placements: u64,
}

fn has(set: &Row, x: usize) -> bool {
    set[x / 64] >> (x % 64) & 1 == 1
}

fn put(set: &mut Row, x: usize) {
    set[x / 64] |= 1 << (x % 64);
}

fn within(a: &Row, b: &Row) -> bool {
    a.iter().zip(b).all(|(a, b)| a & !b == 0)
}

fn set(records: usize, test: impl Fn(usize) -> bool) -> Row {
    let mut row = [0; 4];
    (0..records).filter(|&x| test(x)).for_each(|x| put(&mut row, x));
    row
}

/// Adds every chain.
fn close(rows: &mut [Row]) {
    for k in 0..rows.len() {
        let through = rows[k];
        for row in rows.iter_mut().filter(|row| has(row, k)) {
            row.iter_mut().zip(through).for_each(|(word, more)| *word |= more);
        }
    }
}

/// Nothing is placed where a source is missing or the rules run in a circle.
pub fn search(trace: &[Record], model: Model) -> Found {
    let n = trace.len();
    let sources: Vec<Option<usize>> = (0..n).map(|load| source(trace, load)).collect();
    let held = rounds::<Words>(trace, &kept(trace, model), &sources).chains;
    if missing(trace, &sources).is_some() || (0..n).any(|x| held.has(x, x)) {
        return Found { order: false, placements: 0 };
    }
    let mut search = Search {
        operations: set(n, |x| !trace[x].is_fence()),
        before: (0..n).map(|y| set(n, |x| held.has(x, y))).collect(),
        writers: (0..n).map(|y| set(n, |x| !trace[y].is_fence() && writes_there(trace, y, x))).collect(),
        sources,
        dead: vec![[0; 4]; SLOTS as usize],
        placements: 0,
    };
    let order = search.find(&[0; 4]) == 0;
    Found { order, placements: search.placements }
}

impl Search {
    fn records(&self) -> usize {
        self.before.len()
    }

    /// Nobody else waits at the address that y writes: a reader whose source is placed while it is not.
    fn ready(&self, placed: &Row, y: usize) -> bool {
        let waits =
            |load: usize| has(&self.writers[load], y) && !has(placed, load) && self.sources[load].is_some_and(|source| has(placed, source));
        has(&self.operations, y) && !has(placed, y) && within(&self.before[y], placed) && !(0..self.records()).any(waits)
    }

    /// Whoever reads from y is placed; or each other writer there that did not fail has an unplaced one before it; or, where it is worth asking, the
    /// rules refute the set.
    fn stops(&self, placed: &Row, failed: &Row, y: usize, asks: bool) -> bool {
        let led = |z: usize| (0..self.records()).any(|x| has(&self.writers[z], x) && has(&self.before[z], x) && !has(placed, x));
        let open = |z: usize| has(&self.writers[y], z) && !has(placed, z) && !has(failed, z);
        (0..self.records()).all(|load| self.sources[load] != Some(y) || has(placed, load))
            || (0..self.records()).all(|z| !open(z) || led(z))
            || (asks && self.refuted(placed))
    }

    /// With all that is placed before all that is not, rules 6 and 7 close a circle; or they do so either way round for one of a few pairs of writers.
    fn refuted(&self, placed: &Row) -> bool {
        let mut led = self.before.clone();
        self.circular(placed, &mut led) || self.divided(placed, &led)
    }

    /// Rules 6 and 7 to their end; whether they close a circle.
    fn circular(&self, placed: &Row, led: &mut Vec<Row>) -> bool {
        loop {
            let was = led.clone();
            for load in (0..self.records()).filter(|&load| !has(placed, load)) {
                let Some(source) = self.sources[load] else { continue };
                for z in (0..self.records()).filter(|&z| z != source && has(&self.writers[load], z)) {
                    if has(&led[load], z) {
                        put(&mut led[source], z);
                    }
                    if has(&led[z], source) || (has(placed, source) && !has(placed, z)) {
                        put(&mut led[z], load);
                    }
                }
            }
            if *led == was {
                return false;
            }
            close(led);
            if (0..self.records()).any(|x| has(&led[x], x)) {
                return true;
            }
        }
    }

    /// Of the first few writers that have one, each with the next writer of its address that leads it neither way, one of the two read from: whether both
    /// sides of such a pair close a circle.
    fn divided(&self, placed: &Row, led: &[Row]) -> bool {
        let left = |x: &usize| has(&self.operations, *x) && !has(placed, *x);
        let read = set(self.records(), |x| (0..self.records()).any(|load| left(&load) && self.sources[load] == Some(x)));
        let open = |x: usize, y: usize| {
            has(&self.writers[x], y)
                && has(&self.writers[y], x)
                && (has(&read, x) || has(&read, y))
                && !has(&led[x], y)
                && !has(&led[y], x)
        };
        let pairs = (0..self.records()).filter(left).filter_map(|x| (x + 1..self.records()).filter(left).find(|&y| open(x, y)).map(|y| (x, y)));
        let falls = |x: usize, y: usize| {
            let mut side = led.to_vec();
            put(&mut side[y], x);
            close(&mut side);
            self.circular(placed, &mut side)
        };
        pairs.take(TRIES).any(|(x, y)| falls(x, y) && falls(y, x))
    }

    /// 0 where an order is found, and otherwise what the search cost, up to PATIENCE.
    fn find(&mut self, placed: &Row) -> u64 {
        if *placed == self.operations {
            return 0;
        }
        let slot = placed.iter().fold(0, |fold, word| (fold % SLOTS) * 31 + word % SLOTS) % SLOTS;
        if *placed != [0; 4] && self.dead[slot as usize] == *placed {
            return 1;
        }
        let (mut failed, mut cost) = ([0; 4], 1);
        for y in 0..self.records() {
            if self.ready(placed, y) {
                self.placements += 1;
                let mut next = *placed;
                put(&mut next, y);
                let below = self.find(&next);
                if below == 0 {
                    return 0;
                }
                let patient = cost < PATIENCE;
                cost = PATIENCE.min(cost + below + 1);
                put(&mut failed, y);
                if self.stops(placed, &failed, y, patient && cost == PATIENCE) {
                    break;
                }
            }
        }
        self.dead[slot as usize] = *placed;
        cost
    }
}
