//! Families of texts to compare on. A family, a seed and a case number give one text.

use crate::chance::Chance;
use crate::trace::MOST_RECORDS;

mod firsts;
mod knot;
mod runs;
mod texts;
mod threads;

pub struct Family {
    pub name: &'static str,
    pub what: &'static str,
    pub draw: fn(&mut Chance) -> Vec<u8>,
    /// Its cases take long.
    pub seldom: bool,
}

/// Families that are drawn often have at most so many records, but for those that look at the bound itself.
pub const USUAL: usize = 64;

/// The long ones have at most so many: lower it where what is compared with takes too long on them.
pub const LONGEST: usize = MOST_RECORDS;

/// The long ones only where a trace may be long.
pub const FAMILIES: &[Family] = if MOST_RECORDS > USUAL { ALL } else { ALL.split_at(ALL.len() - LONG).0 };

/// So many of them stand last and are long.
const LONG: usize = 2;

const ALL: &[Family] = &[
    often("stated", "the traces of document 01, in other text orders too", runs::stated),
    often("sc", "runs of a simulated SC machine", runs::sc),
    often("tso", "runs of a simulated TSO machine", runs::tso),
    often("pso", "runs of a simulated PSO machine", runs::pso),
    often("wmo", "runs of a simulated WMO machine", runs::wmo),
    often("weak", "short runs under TSO, PSO or WMO that are slow to drain, a third with a read changed", runs::weak),
    often("sc-changed", "the same with one or two reads changed", runs::sc_changed),
    often("tso-changed", "the same with one or two reads changed", runs::tso_changed),
    often("weaker-changed", "PSO and WMO runs with one or two reads changed", runs::weaker_changed),
    often("knot", "KNOT's shape: renamed, merged, dropped, added, padded, copied", knot::knot),
    often("dense", "2 to 8 operations on 1 or 2 addresses, reads by chance", runs::dense),
    often("middle", "9 to 16 operations on 1 to 3 addresses, reads by chance", runs::middle),
    often("rounds", "runs on 1 to 3 crowded addresses, a read changed to a neighbouring value", runs::rounds),
    often("edges", "one line of a good text on either side of a refusal's edge", texts::edges),
    often("numbers", "lines of the forms with numbers at and past their bounds", texts::numbers),
    often("inits", "init lines, twice or late or past a bound, and records that write what they say", texts::inits),
    often("lost", "few records of threads by chance, with and without gaps, at times a bad line", texts::lost),
    often("ranks", "a line to which several numbers apply, often one record past the bound", texts::ranks),
    often("sizes", "lines, records and bytes at their bounds and one past", texts::sizes),
    often("damaged", "a good text with one to three bytes put in, taken out or changed", texts::damaged),
    often("edges-damaged", "a text at a number's edge with one byte put in, taken out or changed", texts::edges_damaged),
    often("bytes", "random bytes, and random pieces of the forms", texts::bytes),
    seldom("long", "runs of more than 64 records, under any model that there is", runs::long),
    seldom("long-changed", "the same with one or two reads changed", runs::long_changed),
];

const fn often(name: &'static str, what: &'static str, draw: fn(&mut Chance) -> Vec<u8>) -> Family {
    Family { name, what, draw, seldom: false }
}

const fn seldom(name: &'static str, what: &'static str, draw: fn(&mut Chance) -> Vec<u8>) -> Family {
    Family { name, what, draw, seldom: true }
}

pub fn family(name: &str) -> Option<&'static Family> {
    FAMILIES.iter().find(|family| family.name == name)
}

/// The seed is mixed with the family's name, so that two families do not share their chance.
pub fn text(family: &Family, seed: u64, case: u64) -> Vec<u8> {
    let named = family.name.bytes().fold(seed, |sum, byte| Chance::new(sum ^ u64::from(byte)).draw());
    (family.draw)(&mut Chance::of_case(named, case))
}
