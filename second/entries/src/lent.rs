//! Memory that is lent to an entry, with memory around it that is not: all of it is compared.

use second::chance::Chance;

/// So many bytes lie before and behind what is lent.
const AROUND: usize = 16;

#[derive(Clone, PartialEq, Eq)]
pub struct Lent {
    all: Vec<u8>,
}

impl Lent {
    /// Filled by chance: what an entry leaves alone is then seen to stay.
    pub fn drawn(chance: &mut Chance, room: usize) -> Lent {
        let mut all = chance.bytes(room + 2 * AROUND);
        if chance.percent(20) {
            all.fill(*chance.of(&[0, 1, 255]));
        }
        Lent { all }
    }

    pub fn of(bytes: &[u8]) -> Lent {
        Lent { all: [&[0xA5; AROUND], bytes, &[0x5A; AROUND]].concat() }
    }

    pub fn bytes(&self) -> &[u8] {
        &self.all[AROUND..self.all.len() - AROUND]
    }

    pub fn bytes_mut(&mut self) -> &mut [u8] {
        let end = self.all.len() - AROUND;
        &mut self.all[AROUND..end]
    }

    /// Where the two differ, told in words; empty where they do not. Places before what is lent are below 0.
    pub fn differences(&self, got: &Lent) -> String {
        let differ = |place: &usize| self.all[*place] != got.all[*place];
        let places: Vec<usize> = (0..self.all.len()).filter(differ).collect();
        if places.is_empty() {
            return String::new();
        }
        let told = |&place: &usize| format!("{}: {} not {}", place as isize - AROUND as isize, got.all[place], self.all[place]);
        let first: Vec<String> = places.iter().take(12).map(told).collect();
        format!("{} bytes differ from those wanted, at {}\n", places.len(), first.join(", "))
    }
}
