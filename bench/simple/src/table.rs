//! A relation on record numbers, kept in one of two ways.

pub trait Table: Clone + PartialEq {
    fn empty(records: usize) -> Self;
    fn records(&self) -> usize;
    fn has(&self, x: usize, y: usize) -> bool;
    fn put(&mut self, x: usize, y: usize);
    /// Adds every chain: one or more pairs in a row.
    fn close(&mut self);
}

/// A list of lists.
#[derive(Clone, PartialEq)]
pub struct Bools(Vec<Vec<bool>>);

impl Table for Bools {
    fn empty(records: usize) -> Bools {
        Bools(vec![vec![false; records]; records])
    }

    fn records(&self) -> usize {
        self.0.len()
    }

    fn has(&self, x: usize, y: usize) -> bool {
        self.0[x][y]
    }

    fn put(&mut self, x: usize, y: usize) {
        self.0[x][y] = true;
    }

    fn close(&mut self) {
        for k in 0..self.records() {
            for x in 0..self.records() {
                if self.0[x][k] {
                    for y in 0..self.records() {
                        if self.0[k][y] {
                            self.0[x][y] = true;
                        }
                    }
                }
            }
        }
    }
}

/// Rows of bits, each of as many words as the records need.
#[derive(Clone, PartialEq)]
pub struct Words {
    rows: Vec<Vec<u64>>,
}

impl Words {
    pub fn row(&self, x: usize) -> &[u64] {
        &self.rows[x]
    }
}

impl Table for Words {
    fn empty(records: usize) -> Words {
        Words { rows: vec![vec![0; records.div_ceil(64)]; records] }
    }

    fn records(&self) -> usize {
        self.rows.len()
    }

    fn has(&self, x: usize, y: usize) -> bool {
        self.rows[x][y / 64] >> (y % 64) & 1 == 1
    }

    fn put(&mut self, x: usize, y: usize) {
        self.rows[x][y / 64] |= 1 << (y % 64);
    }

    fn close(&mut self) {
        for k in 0..self.records() {
            let through = self.rows[k].clone();
            for row in &mut self.rows {
                if row[k / 64] >> (k % 64) & 1 == 1 {
                    row.iter_mut().zip(&through).for_each(|(word, more)| *word |= more);
                }
            }
        }
    }
}
