//! signed [SETS [SEED]]: draws so many sets of reads of random test programs, packs and unpacks each by the proved library and by the second reading, and
//! compares. Half of the programs have a thread whose ranges multiply to 2 to the 64th, or just not, or just past it. Started by hand; it also tells how
//! small a set gets. The very last line is `N passed, M failed`.

use second::chance::Chance;
use second::signatures::{layout, list, loads, pack, unpack};
use second::trace::{text_of, Record, Trace};
use std::process::ExitCode;
use wheelotter::entries;

/// So many sets of reads are drawn of one program.
const SETS: u64 = 20;

/// A program of up to `most` records on `threads` threads and a few addresses.
fn random(chance: &mut Chance, most: usize) -> Vec<Record> {
    let count = chance.between(0, most);
    let addresses = chance.between(1, 16);
    let threads = chance.between(1, 8);
    let mut records = Vec::new();
    for value in 1..=count as u64 {
        let (thread, address) = (chance.below(threads) as u64, chance.below(addresses) as u64);
        records.push(match chance.below(10) {
            0..=4 => Record::Load { thread, address, read: 0 },
            5..=7 => Record::Store { thread, address, written: value },
            8 => Record::Swap { thread, address, read: 0, written: value },
            _ => Record::Fence { thread },
        });
    }
    records
}

/// One thread whose loads have ranges that are powers of a few numbers: address k has k + 1 writers, so its loads have the range k + 2.
fn edge(chance: &mut Chance) -> Vec<Record> {
    let mut records = Vec::new();
    let mut value = 0;
    let most = 7;
    for address in 0..most {
        for _ in 0..=address {
            value += 1;
            records.push(Record::Store { thread: chance.below(3) as u64, address, written: value });
        }
    }
    // 2, 4 and 8 choices: products of exactly 2 to the 64th; then now and then one that is not a power of 2
    let mut bits = 0;
    while bits < 64 - chance.below(3) && records.len() < 240 {
        let power = chance.between(1, 3).min(64 - bits);
        let address = [0, 0, 2, 6][power];
        bits += power;
        records.push(Record::Load { thread: 0, address, read: 0 });
    }
    for _ in 0..chance.below(6) {
        let address = chance.below(most as usize) as u64;
        records.push(Record::Load { thread: 0, address, read: 0 });
    }
    chance.shuffle(&mut records[..28]);
    records
}

/// Threads are numbered without a gap, as a text asks for.
fn closed_up(records: &mut [Record]) {
    let mut seen: Vec<u64> = records.iter().map(Record::thread).collect();
    seen.sort_unstable();
    seen.dedup();
    for record in records {
        let to = seen.iter().position(|&thread| thread == record.thread()).expect("seen") as u64;
        match record {
            Record::Load { thread, .. } | Record::Store { thread, .. } | Record::Swap { thread, .. } | Record::Fence { thread } => {
                *thread = to
            }
        }
    }
}

fn with_reads(records: &[Record], reads: &[u64]) -> Trace {
    let mut trace = Trace::of(records);
    for (place, &value) in trace.places.iter_mut().zip(reads) {
        match place {
            Record::Load { read, .. } | Record::Swap { read, .. } => *read = value,
            Record::Store { .. } | Record::Fence { .. } => {}
        }
    }
    trace
}

/// Whether all that comes of one set of reads is as it should be.
fn right(trace: &Trace, reads: &[u64]) -> bool {
    let text = text_of(trace);
    let mut words = vec![0; layout(trace).len()];
    let mut back = vec![0; loads(trace).len()];
    let packed = entries::words(&text) == words.len() && entries::loads(&text) == back.len() && entries::signature(&text, &mut words) == 0;
    let unpacked = entries::reads(&text, &words, &mut back) == 0;
    let wanted: Vec<u64> = loads(trace).iter().map(|&load| reads[load]).collect();
    packed
        && unpacked
        && pack(trace, |load| reads[load]).as_ref() == Ok(&words)
        && unpack(trace, &words).as_ref() == Ok(&wanted)
        && back.iter().map(|&value| u64::from(value)).eq(wanted)
}

fn main() -> ExitCode {
    let words: Vec<u64> = std::env::args().skip(1).filter_map(|word| word.parse().ok()).collect();
    let (sets, seed) = (words.first().copied().unwrap_or(1_000), words.get(1).copied().unwrap_or(1));
    let (mut passed, mut failed, mut exact, mut next) = (0, 0, 0u64, 0u64);
    let mut case = 0;
    while passed + failed < sets {
        let mut chance = Chance::of_case(seed, case);
        let mut records = if case % 2 == 0 { random(&mut chance, if case % 20 == 0 { 256 } else { 64 }) } else { edge(&mut chance) };
        case += 1;
        closed_up(&mut records);
        let plain = Trace::of(&records);
        for of in layout(&plain) {
            let product: u128 = of.iter().map(|&load| list(&plain, load).len() as u128).product();
            exact += u64::from(product == 1 << 64);
            next += u64::from(product < 1 << 64 && product * 9 > 1 << 64);
        }
        for _ in 0..SETS {
            let mut reads = vec![0; plain.count];
            for load in loads(&plain) {
                let choices = list(&plain, load);
                reads[load] = if chance.percent(10) { choices[choices.len() - 1] } else { *chance.of(&choices) };
            }
            let trace = with_reads(&records, &reads);
            if right(&trace, &reads) {
                passed += 1;
            } else {
                failed += 1;
                println!("DIFFERENCE: case {} of seed {seed}\n{}", case - 1, String::from_utf8_lossy(&text_of(&trace)));
            }
        }
    }
    println!("{case} programs; {exact} words of exactly 2 to the 64th, {next} next to it");
    for count in [64, 256] {
        let (mut bits, mut of, mut reads) = (0, 0, 0);
        for number in 0..200 {
            let mut chance = Chance::of_case(seed ^ 0xB17, number);
            let mut records = random(&mut chance, count);
            while records.len() < count {
                records = random(&mut chance, count);
            }
            let trace = Trace::of(&records);
            bits += 8 * layout(&trace).len();
            reads += loads(&trace).len();
            of += 1;
        }
        println!("{count} records: {} loads on average, {} bytes of words", reads / of, bits / of);
    }
    println!("{passed} passed, {failed} failed");
    if failed == 0 {
        ExitCode::SUCCESS
    } else {
        ExitCode::FAILURE
    }
}
