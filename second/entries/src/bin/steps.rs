//! steps [TRACES [SEED]]: the limited entry beside the plain search of the second reading, which remembers nothing, on traces of up to 18 records under
//! every model: the answer, the order and the count, at the count, one below it, at 0, and at a limit drawn by chance. Started by hand; the
//! last line is `N passed, M failed`, a trace under a model counted once.

use second::chance::Chance;
use second::desk::{Page, LIMITED, UNDECIDED};
use second::machine::{run_under, Shape};
use second::trace::{text_of, Firsts, Model, Record, Trace};
use std::collections::BTreeMap;
use std::process::ExitCode;

/// Past so many steps the second reading gives up, and only lower limits are asked.
const STEPS: u64 = 300_000;

const MOST_RECORDS: usize = 18;

fn main() -> ExitCode {
    let numbers: Vec<u64> = std::env::args().skip(1).filter_map(|word| word.parse().ok()).collect();
    let (traces, seed) = (numbers.first().copied().unwrap_or(1_000), numbers.get(1).copied().unwrap_or(1));
    let (mut passed, mut failed, mut asked, mut long) = (0, 0, 0, 0);
    let mut answers: BTreeMap<u8, u64> = BTreeMap::new();
    for number in 0..traces {
        let mut chance = Chance::of_case(seed, number);
        let text = text_of(&drawn(&mut chance));
        let page = Page::new(&text, STEPS);
        for &model in Model::all() {
            let asked_by = model.number() as u8;
            let count = page.plain_under(model).map(|(_, count)| *count);
            long += u64::from(count.is_none());
            let any = chance.below(STEPS as usize) as u64;
            let limits = match count {
                Some(0) | None => vec![0, any],
                Some(count) => vec![0, count - 1, count, u64::MAX, any.min(2 * count)],
            };
            let mut same = true;
            for limit in limits {
                let (mut mine, mut theirs) = ([0xA5; LIMITED + 3], [0xA5; LIMITED + 3]);
                let Some(wanted) = page.limited(asked_by, limit, &mut mine) else { continue };
                let got = wheelotter::entries::limited(&text, asked_by, limit, &mut theirs);
                asked += 1;
                *answers.entry(wanted).or_default() += 1;
                if wanted != got || mine != theirs {
                    same = false;
                    println!("DIFFERENCE: trace {number} under {} within {limit}: wanted {wanted}, got {got}", model.name());
                    println!("{}", String::from_utf8_lossy(&text));
                }
            }
            *(if same { &mut passed } else { &mut failed }) += 1;
        }
    }
    let undecided = answers.get(&UNDECIDED).copied().unwrap_or(0);
    println!("{asked} limits asked, {undecided} undecided, {long} searches longer than {STEPS} steps; answers: {answers:?}");
    println!("{passed} passed, {failed} failed");
    ExitCode::from(u8::from(failed > 0))
}

/// What each address begins with: 0 everywhere, or here and there a value that nobody is likely to write.
fn begun(chance: &mut Chance) -> Firsts {
    let share = *chance.of(&[0, 0, 50, 100]);
    std::array::from_fn(|address| if chance.percent(share) { 60_000 + address as u64 } else { 0 })
}

/// Threads numbered without gaps, in the order of their first records: a text that skips one is turned back.
fn numbered(records: &mut [Record]) {
    let mut seen = Vec::new();
    for record in records {
        let thread = record.thread();
        if !seen.contains(&thread) {
            seen.push(thread);
        }
        let new = seen.iter().position(|&other| other == thread).unwrap_or(0) as u64;
        match record {
            Record::Load { thread, .. } | Record::Store { thread, .. } | Record::Swap { thread, .. } | Record::Fence { thread } => {
                *thread = new
            }
        }
    }
}

/// A run of a machine, with up to three reads changed to what somebody else wrote there, or to the beginning.
fn drawn(chance: &mut Chance) -> Trace {
    let records = chance.between(1, MOST_RECORDS);
    let threads = chance.between(1, 5);
    let addresses = chance.between(1, 4);
    let shape = Shape {
        records,
        threads: (0..threads as u64).collect(),
        addresses: chance.different(addresses, 15),
        stores: chance.between(20, 60),
        late_stores: chance.between(10, 60),
        swaps: *chance.of(&[0, 0, 5, 15]),
        fences: *chance.of(&[0, 0, 5, 15]),
        drains: chance.below(60),
        own: chance.below(40),
        home: chance.below(60),
        firsts: begun(chance),
    };
    let model = *chance.of(Model::all());
    let mut records = run_under(chance, &shape, model);
    records.truncate(MOST_RECORDS);
    for _ in 0..chance.below(4) {
        let place = chance.below(records.len().max(1));
        let Some(address) = records.get(place).and_then(Record::address) else { continue };
        let written = |record: &Record| record.written().filter(|_| record.address() == Some(address));
        let values: Vec<u64> = std::iter::once(shape.firsts[address as usize]).chain(records.iter().filter_map(written)).collect();
        let value = *chance.of(&values);
        match &mut records[place] {
            Record::Load { read, .. } | Record::Swap { read, .. } => *read = value,
            _ => (),
        }
    }
    numbered(&mut records);
    Trace::with(shape.firsts, &records)
}
