//! Bytes that were a session. Some of what is done here leaves one: a pair that was held all the same, a record that changes nothing.

use crate::call::OTHER_MODELS;
use second::chance::Chance;
use second::desk::{number_at, place_of, put_number, CONTRADICTED_AT as CONTRADICTED, HEAD, PAIRS_AT as PAIRS, TABLE_AT as TABLE};
use second::files;
use second::packed::{file_of, HEADER, RECORD};
use second::session::MOST_PAIRS;
use second::trace::{Trace, MODELS, MOST_RECORDS};

const COUNT: usize = 1;

/// A pair has so many bytes, a number half of them.
const PAIR: usize = 4;

type Damage = (&'static str, fn(&mut Chance, &mut Vec<u8>));

const DAMAGES: [Damage; 20] = [
    ("another model", |chance, bytes| {
        bytes[0] = if chance.percent(60) { chance.between(1, MODELS) as u8 } else { *chance.of(&OTHER_MODELS) };
    }),
    ("another count of pairs", |chance, bytes| bytes[COUNT] = *chance.of(&[0, 1, 2, 15, 16, 17, 255])),
    ("a byte of the pairs", |chance, bytes| {
        let place = chance.between(PAIRS, CONTRADICTED - 1);
        bytes[place] = byte(chance, bytes[place]);
    }),
    ("a number of the standing pairs", |chance, bytes| {
        if let Some(place) = standing(chance, bytes) {
            let number = chance.below(MOST_RECORDS + 2);
            put_number(&mut bytes[place + *chance.of(&[0, 2])..], number);
        }
    }),
    ("a high byte of the standing pairs", |chance, bytes| {
        if let Some(place) = standing(chance, bytes) {
            bytes[place + *chance.of(&[1, 3])] ^= 1;
        }
    }),
    ("a pair turned round", |chance, bytes| {
        if let Some(place) = standing(chance, bytes) {
            bytes[place..][..PAIR].rotate_left(PAIR / 2);
        }
    }),
    ("two pairs in each other's place", |chance, bytes| {
        if let (Some(one), Some(other)) = (standing(chance, bytes), standing(chance, bytes)) {
            (0..PAIR).for_each(|byte| bytes.swap(one + byte, other + byte));
        }
    }),
    ("the latest pair gone, but not what it forced", |_, bytes| {
        let count = usize::from(bytes[COUNT]);
        if count > 0 {
            bytes[COUNT] -= 1;
            bytes[PAIRS + PAIR * (count - 1)..][..PAIR].fill(0);
        }
    }),
    ("a pair more, but not what it forces", |chance, bytes| {
        let count = usize::from(bytes[COUNT]);
        if count < MOST_PAIRS {
            let pair = some_pair(chance, bytes);
            bytes[COUNT] += 1;
            let place = PAIRS + PAIR * count;
            put_number(&mut bytes[place..], pair.0);
            put_number(&mut bytes[place + 2..], pair.1);
        }
    }),
    ("contradicted or not", |_, bytes| bytes[CONTRADICTED] ^= 1),
    ("contradicted, and an empty table", |_, bytes| {
        bytes[CONTRADICTED] = 1;
        bytes[TABLE..HEAD].fill(0);
    }),
    ("the byte for contradicted", |chance, bytes| bytes[CONTRADICTED] = byte(chance, bytes[CONTRADICTED])),
    ("a pair put into the table or taken out", |chance, bytes| {
        let (byte, bit) = place_of(some_pair(chance, bytes));
        bytes[byte.min(HEAD - 1)] ^= bit;
    }),
    ("a byte of the table", |chance, bytes| {
        let place = chance.between(TABLE, HEAD - 1);
        bytes[place] = byte(chance, bytes[place]);
    }),
    ("a byte of the file", |chance, bytes| {
        let place = chance.between(HEAD, bytes.len() - 1);
        bytes[place] = byte(chance, bytes[place]);
    }),
    ("a thread or a value of a record", |chance, bytes| {
        let records = count_of_records(bytes);
        if records > 0 {
            let place = bytes.len() - RECORD * (1 + chance.below(records)) + *chance.of(&[1, 1, 4, 6]);
            bytes[place] = chance.below(8) as u8;
        }
    }),
    ("something wrong with its file", |chance, bytes| {
        let mut file = bytes.split_off(HEAD);
        files::damage(chance, &mut file);
        bytes.extend(file);
    }),
    ("cut off", |chance, bytes| {
        let length = bytes.len();
        let to = [0, 1, TABLE, HEAD - 1, HEAD, length - 1, chance.below(length), length - chance.below(length - HEAD + 1)];
        bytes.truncate(*chance.of(&to));
    }),
    ("something behind it", |chance, bytes| {
        let records = count_of_records(bytes);
        bytes.extend([[3, 0, 0, 0, 0, 0, 0, 0], [3, 7, 0, 0, 0, 0, 0, 0], [0, 0, 9, 0, 0, 0, 0, 0]][chance.below(3)]);
        if chance.percent(70) && records < MOST_RECORDS {
            put_number(&mut bytes[HEAD + HEADER - 2..], records + 1);
        } else if chance.percent(50) {
            bytes.truncate(bytes.len() - chance.below(RECORD));
        }
    }),
    ("bytes by chance", |chance, bytes| {
        let long = HEAD + HEADER + RECORD * MOST_RECORDS;
        let lengths = [
            0,
            1,
            PAIRS,
            CONTRADICTED,
            TABLE,
            HEAD - 1,
            HEAD,
            HEAD + 1,
            HEAD + 7,
            HEAD + 8,
            HEAD + 8,
            HEAD + 9,
            bytes.len(),
            chance.below(long),
            long,
            long + 1,
        ];
        let length = *chance.of(&lengths);
        *bytes = chance.bytes(length);
        if chance.percent(60) {
            bytes.fill(0);
            bytes.iter_mut().take(1).for_each(|model| *model = chance.below(MODELS + 2) as u8);
            bytes.iter_mut().skip(HEAD).zip(file_of(&Trace::empty())).for_each(|(place, byte)| *place = byte);
        }
    }),
];

/// What is done to a session that stands, in words, and the bytes after it.
pub fn damaged(chance: &mut Chance, session: &[u8]) -> (&'static str, Vec<u8>) {
    let (what, harm) = chance.of(&DAMAGES);
    let mut bytes = session.to_vec();
    harm(chance, &mut bytes);
    (what, bytes)
}

/// Another byte than this one, mostly one that a session could have somewhere.
fn byte(chance: &mut Chance, now: u8) -> u8 {
    let (any, bit) = (chance.below(256) as u8, 1 << chance.below(8));
    let other = *chance.of(&[now ^ 1, now.wrapping_add(1), 0, 1, 2, 64, 255, now ^ bit, any]);
    if other == now {
        !now
    } else {
        other
    }
}

/// Where one of the pairs that stand begins.
fn standing(chance: &mut Chance, bytes: &[u8]) -> Option<usize> {
    let count = usize::from(bytes[COUNT]);
    (count > 0).then(|| PAIRS + PAIR * chance.below(count))
}

/// Records of the trace; seldom the one past its end.
fn some_pair(chance: &mut Chance, bytes: &[u8]) -> (usize, usize) {
    let records = count_of_records(bytes);
    let mut number = || if records == 0 || chance.percent(2) { records } else { chance.below(records) };
    (number(), number())
}

/// As the file of a session that stands says.
fn count_of_records(bytes: &[u8]) -> usize {
    number_at(&bytes[HEAD + HEADER - 2..])
}
