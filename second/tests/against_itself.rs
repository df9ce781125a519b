//! One way of finding an answer against another, on many texts drawn by chance.

use second::families::{family, text, FAMILIES, USUAL};
use second::lists::drawn;
use second::orders::{first_permutation, judge, judgement, plain_search, search, First, Judgement};
use second::reader::{read, read_lines, Refusal};
use second::rules::{around, chains, circle, last_round, Edges, Pair};
use second::session::{ask, open, suppose, take_back, Answer};
use second::trace::{kept, text_of, Model, Record, Trace};
use second::verdict::{lowest_without_source, MOST_STEPS};
use std::collections::{BTreeMap, BTreeSet};

/// All four, whether the program has them or not.
const MODELS: [Model; 4] = Model::KNOWN;

/// The traces among a family's first cases.
fn traces(name: &str, cases: u64) -> Vec<Trace> {
    let family = family(name).expect("a family");
    (0..cases).filter_map(|case| read(&text(family, 77, case)).ok()).collect()
}

fn shown(trace: &Trace) -> String {
    String::from_utf8(text_of(trace)).expect("letters")
}

#[test]
fn permutations_and_both_searches_agree() {
    for trace in traces("dense", 4_000).iter().chain(&traces("weak", 2_000)) {
        if trace.operations().len() > 7 {
            continue;
        }
        for model in MODELS {
            let wanted = first_permutation(trace, model);
            assert_eq!(search(trace, model, u64::MAX), wanted, "{model:?}\n{}", shown(trace));
            assert_eq!(plain_search(trace, model, u64::MAX), wanted, "{model:?}\n{}", shown(trace));
        }
    }
}

#[test]
fn permutations_of_eight_and_the_search_agree() {
    let eight = traces("dense", 2_000).into_iter().filter(|trace| trace.operations().len() == 8).take(120);
    for trace in eight {
        for model in MODELS {
            assert_eq!(search(&trace, model, u64::MAX), first_permutation(&trace, model), "{model:?}\n{}", shown(&trace));
        }
    }
}

#[test]
fn the_search_agrees_with_the_plain_one_on_longer_traces() {
    let mut compared = 0;
    for name in ["middle", "weak", "knot", "rounds", "tso-changed", "sc", "weaker-changed", "wmo"] {
        for trace in traces(name, 600) {
            for model in MODELS {
                let wanted = plain_search(&trace, model, 20_000);
                if wanted != First::NotKnown {
                    compared += 1;
                    assert_eq!(search(&trace, model, u64::MAX), wanted, "{model:?}\n{}", shown(&trace));
                }
            }
        }
    }
    assert!(compared > 3_000, "only {compared}");
}

#[test]
fn what_the_rules_hold_is_kept_by_every_order_found() {
    let (mut orders, mut circles) = (0, 0);
    for name in
        ["dense", "weak", "middle", "rounds", "knot", "sc", "tso", "pso", "wmo", "sc-changed", "tso-changed", "weaker-changed", "stated"]
    {
        for trace in traces(name, 500) {
            if lowest_without_source(&trace).is_some() {
                continue;
            }
            for model in MODELS {
                let round = last_round(&trace, model, &[]);
                match search(&trace, model, 100_000) {
                    First::Order(list) => {
                        orders += 1;
                        assert!(judge(&trace, model, &list), "{model:?}\n{}", shown(&trace));
                        assert!(!round.contradicted(), "{model:?}\n{}", shown(&trace));
                        assert!(keeps(&list, round.chains.iter()), "{model:?}\n{}", shown(&trace));
                    }
                    First::None => circles += usize::from(round.contradicted()),
                    First::NotKnown => {}
                }
            }
        }
    }
    assert!(orders > 1_000 && circles > 500, "{orders} orders, {circles} circles");
}

/// Where the bound allows traces of more than 64 records: the search comes to an end on them, and its orders keep what the rules hold.
#[test]
fn long_traces() {
    let families = FAMILIES.iter().filter(|family| family.seldom);
    let (mut told, mut not_known) = (0, 0);
    for trace in families.flat_map(|family| traces(family.name, 30)) {
        assert!(trace.count > USUAL);
        for model in MODELS {
            match search(&trace, model, MOST_STEPS) {
                First::Order(list) => {
                    told += 1;
                    assert!(judge(&trace, model, &list), "{model:?}\n{}", shown(&trace));
                    assert!(keeps(&list, last_round(&trace, model, &[]).chains.iter()), "{model:?}\n{}", shown(&trace));
                }
                First::None => told += 1,
                First::NotKnown => not_known += 1,
            }
        }
    }
    assert!(not_known * 20 <= told, "{not_known} not known, {told} told");
}

fn keeps<'a>(list: &[usize], mut pairs: impl Iterator<Item = &'a Pair>) -> bool {
    let place: BTreeMap<usize, usize> = list.iter().enumerate().map(|(at, &x)| (x, at)).collect();
    pairs.all(|(x, y)| place[x] < place[y])
}

/// Not only the first order: all valid ones of small traces.
#[test]
fn every_valid_order_keeps_what_is_held() {
    for trace in traces("dense", 1_500).iter().chain(&traces("weak", 1_000)) {
        let mut list = trace.operations();
        if list.len() > 6 || lowest_without_source(trace).is_some() {
            continue;
        }
        let rounds = MODELS.map(|model| (model, last_round(trace, model, &[])));
        loop {
            for (model, round) in &rounds {
                if judge(trace, *model, &list) {
                    assert!(!round.contradicted() && keeps(&list, round.chains.iter()), "{model:?}\n{}", shown(trace));
                }
            }
            if !second::orders::next_permutation(&mut list) {
                break;
            }
        }
    }
}

#[test]
fn a_run_has_an_order_under_its_model_and_every_weaker_one() {
    let mut parted = 0;
    for (model, name) in MODELS.into_iter().zip(["sc", "tso", "pso", "wmo"]) {
        for trace in traces(name, 400) {
            let First::Order(list) = search(&trace, model, 100_000) else { panic!("a run of {name} has an order\n{}", shown(&trace)) };
            let keeping = MODELS.map(|other| judge(&trace, other, &list));
            assert!(keeping[model as usize..].iter().all(|&yes| yes), "{name} {keeping:?}\n{}", shown(&trace));
            parted += usize::from(!keeping[0]);
        }
    }
    assert!(parted > 200, "{parted}");
}

// ---- the rules, as a question about one edge ----

/// Does this rule give x before y, by these chains? Every rule is asked for with all its letters, in a way apart from rules.rs.
fn gives(trace: &Trace, model: Model, chains: &BTreeSet<Pair>, rule: u8, x: usize, y: usize) -> bool {
    let all = 0..trace.count;
    let po = |a: usize, b: usize| a < b && trace.places[a].thread() == trace.places[b].thread();
    let reads = |l: usize| trace.places[l].read();
    let writes =
        |s: usize, l: usize| trace.places[s].written().is_some() && trace.places[s].address() == trace.places[l].address() && s != l;
    let first = |l: usize| trace.places[l].address().map(|address| trace.firsts[address as usize]);
    let source = |s: usize, l: usize| reads(l).is_some() && reads(l) != first(l) && writes(s, l) && trace.places[s].written() == reads(l);
    match rule {
        1 => kept(trace, model, x, y),
        2 => source(x, y) && !po(x, y),
        3 => x != y && all.clone().any(|l| source(y, l) && writes(x, l) && po(x, l)),
        4 => reads(x) == first(x) && writes(y, x),
        5 => reads(y) == first(y) && writes(x, y) && po(x, y),
        6 => x != y && all.clone().any(|l| source(y, l) && writes(x, l) && chains.contains(&(x, l))),
        7 => all.clone().any(|s| s != y && source(s, x) && writes(y, x) && chains.contains(&(s, y))),
        _ => false,
    }
}

/// All edges of a round, from the chains of the one before; with them the lowest rule.
fn asked_edges(trace: &Trace, model: Model, chains: &BTreeSet<Pair>) -> Edges {
    let mut edges = Edges::new();
    for x in trace.operations() {
        for y in trace.operations() {
            if let Some(rule) = (1..=7).find(|&rule| gives(trace, model, chains, rule, x, y)) {
                edges.insert((x, y), rule);
            }
        }
    }
    edges
}

/// Chains by squaring the relation until it stays.
fn squared(edges: &Edges) -> BTreeSet<Pair> {
    let mut all: BTreeSet<Pair> = edges.keys().copied().collect();
    loop {
        let joined: BTreeSet<Pair> = all.iter().flat_map(|&(x, y)| all.iter().filter(move |p| p.0 == y).map(move |p| (x, p.1))).collect();
        let size = all.len();
        all.extend(joined);
        if all.len() == size {
            return all;
        }
    }
}

fn asked_last_round(trace: &Trace, model: Model) -> (Edges, BTreeSet<Pair>) {
    let mut edges = asked_edges(trace, model, &BTreeSet::new());
    loop {
        let chains = squared(&edges);
        let next = asked_edges(trace, model, &chains);
        if chains.iter().any(|(x, y)| x == y) || next.len() == edges.len() {
            return (edges, chains);
        }
        edges = next;
    }
}

#[test]
fn rounds_agree_with_the_rules_asked_edge_by_edge() {
    let mut rules_seen = BTreeSet::new();
    for name in ["dense", "weak", "middle", "rounds", "stated", "tso-changed", "weaker-changed"] {
        for trace in traces(name, 300) {
            if trace.operations().len() > 24 || lowest_without_source(&trace).is_some() {
                continue;
            }
            for model in MODELS {
                let round = last_round(&trace, model, &[]);
                let (edges, asked) = asked_last_round(&trace, model);
                assert_eq!(round.chains, asked, "{model:?}\n{}", shown(&trace));
                assert_eq!(round.edges, edges, "{model:?}\n{}", shown(&trace));
                rules_seen.extend(edges.values().copied());
            }
        }
    }
    assert_eq!(rules_seen, (1..=7).collect());
}

// ---- the circle ----

/// Every list of different operations with an edge from each to the next and from the last to the first, that begins with its lowest.
fn all_circles(edges: &Edges, list: &mut Vec<usize>, most: usize, found: &mut Vec<Vec<usize>>) {
    let here = list[list.len() - 1];
    if list.len() > 1 && edges.contains_key(&(here, list[0])) {
        found.push(list.clone());
    }
    if list.len() == most {
        return;
    }
    for &(_, y) in edges.keys().filter(|pair| pair.0 == here) {
        if y > list[0] && !list.contains(&y) {
            list.push(y);
            all_circles(edges, list, most, found);
            list.pop();
        }
    }
}

#[test]
fn the_circle_shown_is_the_first_of_all_circles() {
    let mut lengths = BTreeMap::new();
    for name in ["dense", "weak", "middle", "stated", "sc-changed"] {
        for trace in traces(name, 600) {
            if trace.operations().len() > 10 || lowest_without_source(&trace).is_some() {
                continue;
            }
            for model in MODELS {
                let (edges, _) = asked_last_round(&trace, model);
                let mut found = Vec::new();
                for start in trace.operations() {
                    all_circles(&edges, &mut vec![start], 5, &mut found);
                }
                let wanted = found.into_iter().min_by(|a, b| (a.len(), a).cmp(&(b.len(), b)));
                let shown_circle = circle(&trace, model);
                assert_eq!(shown_circle.as_ref().map(|c| &c.operations), wanted.as_ref(), "{model:?}\n{}", shown(&trace));
                if let Some(circle) = shown_circle {
                    *lengths.entry(circle.operations.len()).or_insert(0) += 1;
                    assert!(around(&circle.operations).zip(&circle.rules).all(|(pair, rule)| edges[&pair] == *rule));
                }
            }
        }
    }
    assert!(lengths.len() >= 3, "{lengths:?}");
}

/// Chance edges without any trace, where long circles and many of one length are common.
#[test]
fn the_first_shortest_circle_of_chance_edges() {
    let mut chance = second::chance::Chance::new(5);
    for _ in 0..3_000 {
        let (size, percent) = (chance.between(2, 8), chance.between(5, 40));
        let mut edges = Edges::new();
        for pair in (0..size).flat_map(|x| (0..size).map(move |y| (x, y))) {
            if pair.0 != pair.1 && chance.percent(percent) {
                edges.insert(pair, 1);
            }
        }
        let mut found = Vec::new();
        (0..size).for_each(|start| all_circles(&edges, &mut vec![start], size, &mut found));
        let wanted = found.into_iter().min_by(|a, b| (a.len(), a).cmp(&(b.len(), b)));
        assert_eq!(second::rules::first_shortest_circle(&edges), wanted, "{edges:?}");
        assert_eq!(chains(&edges), squared(&edges));
    }
}

// ---- the reader ----

/// A text that is read can be written again from its trace: there is one way only to write a record and an init line, and of the init lines only the
/// order is free, and whether 0 is said.
#[test]
fn good_texts_can_be_written_again() {
    let (mut good, mut with_inits) = (0, 0);
    for name in ["damaged", "edges", "numbers", "ranks", "sizes", "bytes", "inits", "lost", "tso"] {
        let family = family(name).expect("a family");
        for case in 0..3_000 {
            let text = text(family, 3, case);
            match read(&text) {
                Ok(trace) => {
                    good += 1;
                    with_inits += usize::from(text.starts_with(b"init"));
                    assert!(trace.well_formed());
                    assert_eq!(plainest(&text), text_of(&trace));
                    assert_eq!(read(&text_of(&trace)), Ok(trace));
                }
                Err(refusal) => assert!([1, 22].contains(&refusal.number) || nth_line(&text, refusal.line) == Some(refusal.part)),
            }
        }
    }
    assert!(good > 1_000 && with_inits > 300, "{good}, {with_inits}");
}

/// A good text with its init lines of 0 left out and the others in the order of their addresses.
fn plainest(text: &[u8]) -> Vec<u8> {
    let text = String::from_utf8(text.to_vec()).expect("letters");
    let (mut inits, records): (Vec<&str>, Vec<&str>) = text.split_inclusive('\n').partition(|line| line.starts_with("init"));
    inits.retain(|line| !line.ends_with(" := 0\n"));
    inits.sort_by_key(|line| line["init: M[".len()..].split(']').next().expect("an address").parse::<u64>().expect("a number"));
    [inits, records].concat().concat().into_bytes()
}

fn nth_line(text: &[u8], line: usize) -> Option<&[u8]> {
    text.split(|&byte| byte == b'\n').nth(line - 1)
}

#[test]
fn every_refusal_and_its_edge_is_drawn() {
    let mut seen = BTreeSet::new();
    for name in ["damaged", "edges", "numbers", "ranks", "sizes", "bytes", "inits", "lost"] {
        let family = family(name).expect("a family");
        seen.extend((0..2_000).filter_map(|case| read(&text(family, 9, case)).err().map(|refusal| refusal.number)));
    }
    assert_eq!(seen, (1..=8).chain([17, 22]).collect());
}

/// Turned back for a missing core is a text whose lines are all good and show some thread, but not as many different ones as the highest asks for.
#[test]
fn a_missing_core_is_told_by_counting() {
    let (mut lost, mut whole) = (0, 0);
    for family in FAMILIES.iter().filter(|family| !family.seldom) {
        for text in (0..200).map(|case| text(family, 41, case)) {
            let Ok(trace) = read_lines(&text) else {
                assert_eq!(read(&text), read_lines(&text), "what is wrong with a line is told first");
                continue;
            };
            let threads: BTreeSet<u64> = trace.records().iter().map(Record::thread).collect();
            if threads.last().is_some_and(|&highest| highest as usize != threads.len() - 1) {
                lost += 1;
                assert_eq!(read(&text), Err(Refusal { number: 22, line: 0, start: 0, part: &[] }));
            } else {
                whole += 1;
                assert_eq!(read(&text), Ok(trace));
            }
        }
    }
    assert!(lost > 150 && whole > 1_500, "{lost} lost, {whole} whole");
}

// ---- first values ----

/// Values are names: where at each address two of them change their names everywhere, in the first values too, nothing else changes.
#[test]
fn what_the_first_values_are_changes_no_verdict() {
    let mut chance = second::chance::Chance::new(31);
    let mut compared = 0;
    for name in ["stated", "dense", "weak", "middle", "knot", "rounds", "tso", "sc-changed", "weaker-changed"] {
        for trace in traces(name, 60) {
            let names: Vec<(u64, u64)> = trace.firsts.iter().map(|&first| (first, *chance.of(&[0, 1, 7, 65_535]))).collect();
            let renamed = renamed(&trace, &names);
            assert!(renamed.well_formed());
            for model in MODELS {
                let told = |trace: &Trace| (lowest_without_source(trace), circle(trace, model), search(trace, model, 20_000));
                assert_eq!(told(&renamed), told(&trace), "{model:?}\n{}", shown(&trace));
                assert_eq!(last_round(&renamed, model, &[]), last_round(&trace, model, &[]));
            }
            compared += usize::from(renamed.firsts != trace.firsts);
        }
    }
    assert!(compared > 400, "{compared}");
}

fn renamed(trace: &Trace, names: &[(u64, u64)]) -> Trace {
    let other = |address: u64, value: u64| match names[address as usize] {
        (one, another) if value == one => another,
        (one, another) if value == another => one,
        _ => value,
    };
    let each = |record: &Record| match *record {
        Record::Load { thread, address, read } => Record::Load { thread, address, read: other(address, read) },
        Record::Store { thread, address, written } => Record::Store { thread, address, written: other(address, written) },
        Record::Swap { thread, address, read, written } => {
            Record::Swap { thread, address, read: other(address, read), written: other(address, written) }
        }
        Record::Fence { thread } => Record::Fence { thread },
    };
    let firsts = std::array::from_fn(|address| other(address as u64, trace.firsts[address]));
    Trace::with(firsts, &trace.records().iter().map(each).collect::<Vec<_>>())
}

// ---- lists ----

/// Everything that is wrong with a list, asked one by one; the lowest comes first, as the conditions stand in order.
fn asked_judgement(trace: &Trace, model: Model, list: &[usize]) -> Judgement {
    let operations = trace.operations();
    if list.len() != operations.len() {
        return Judgement::WrongLength;
    }
    let mut wrong = vec![];
    let known = |x: &usize| *x < trace.count && !trace.places[*x].is_fence();
    wrong.extend((0..list.len()).filter(|&place| !known(&list[place])).map(Judgement::BadNumber));
    let times = |x: usize| list.iter().filter(|&&y| x == y).count();
    wrong.extend(list.iter().filter(|&&x| times(x) > 1).map(|&x| Judgement::Repeat(x)));
    if wrong.is_empty() {
        let before = |x: usize, y: usize| list.iter().find(|&&z| z == x || z == y) == Some(&x);
        let pairs = operations.iter().flat_map(|&x| operations.iter().map(move |&y| (x, y)));
        wrong.extend(pairs.filter(|&(x, y)| kept(trace, model, x, y) && before(y, x)).map(|(x, y)| Judgement::OutOfTurn(x, y)));
        let counts =
            |s: usize, l: usize| s != l && trace.places[s].written().is_some() && trace.places[s].address() == trace.places[l].address();
        for &l in operations.iter().filter(|&&l| trace.places[l].read().is_some()) {
            let po = |s: usize| s < l && trace.places[s].thread() == trace.places[l].thread();
            let counted: Vec<usize> = operations.iter().copied().filter(|&s| counts(s, l) && (before(s, l) || po(s))).collect();
            let latest = counted.iter().find(|&&s| counted.iter().all(|&other| other == s || before(other, s)));
            let first = trace.firsts[trace.places[l].address().expect("it reads somewhere") as usize];
            if trace.places[l].read() != Some(latest.map_or(first, |&s| trace.places[s].written().expect("it writes"))) {
                wrong.push(Judgement::WrongValue(l));
            }
        }
    }
    wrong.into_iter().min().unwrap_or(Judgement::Valid)
}

#[test]
fn judgements_agree_with_the_conditions_asked_one_by_one() {
    let mut chance = second::chance::Chance::new(23);
    let mut seen: BTreeMap<String, usize> = BTreeMap::new();
    for name in ["dense", "weak", "middle", "stated", "knot", "sc", "tso", "pso", "wmo"] {
        for trace in traces(name, 150) {
            for model in MODELS {
                let order = match search(&trace, model, 10_000) {
                    First::Order(list) => Some(list),
                    _ => None,
                };
                for _ in 0..4 {
                    let list: Vec<usize> = drawn(&mut chance, &trace, order.as_deref()).into_iter().map(usize::from).collect();
                    let told = judgement(&trace, model, &list);
                    assert_eq!(told, asked_judgement(&trace, model, &list), "{model:?} {list:?}\n{}", shown(&trace));
                    assert_eq!(told == Judgement::Valid, judge(&trace, model, &list), "{model:?} {list:?}\n{}", shown(&trace));
                    let kind = format!("{told:?}");
                    *seen.entry(kind.split('(').next().expect("a word").to_string()).or_default() += 1;
                }
            }
        }
    }
    assert!(seen.len() == 6 && seen.values().all(|&times| times > 300), "{seen:?}");
}

// ---- sessions ----

#[test]
fn sessions_hold_what_all_orders_with_their_pairs_keep() {
    let mut chance = second::chance::Chance::new(11);
    let (mut contradicted, mut held) = (0, 0);
    for trace in traces("dense", 700).iter().chain(&traces("weak", 500)) {
        let operations = trace.operations();
        if !(2..=6).contains(&operations.len()) || lowest_without_source(trace).is_some() {
            continue;
        }
        for &kind in Model::all() {
            let model = kind.number();
            let mut stack = vec![open(trace, model).expect("opens")];
            for _ in 0..6 {
                let session = &stack[stack.len() - 1];
                if chance.percent(30) && stack.len() > 1 {
                    let back = take_back(session).expect("a pair stands");
                    stack.pop();
                    assert_eq!(back, stack[stack.len() - 1]);
                    continue;
                }
                let (x, y) = (*chance.of(&operations), *chance.of(&operations));
                if x == y {
                    assert_eq!(suppose(session, x, y), Err((14, session.clone())));
                    continue;
                }
                let next = suppose(session, x, y).expect("good numbers");
                let answer = ask(&next, x, y).expect("good numbers");
                assert_eq!(answer, if next.contradicted { Answer::Contradicted } else { Answer::Held });
                contradicted += usize::from(next.contradicted);
                held += next.held.len();
                assert!(kept_by_all_orders(trace, kind, &next.pairs, next.contradicted, &next.held), "{}", shown(trace));
                stack.push(next);
            }
        }
    }
    assert!(contradicted > 100 && held > 1_000, "{contradicted} contradicted, {held} held");
}

fn kept_by_all_orders(trace: &Trace, model: Model, pairs: &[Pair], contradicted: bool, held: &BTreeSet<Pair>) -> bool {
    let mut list = trace.operations();
    loop {
        if judge(trace, model, &list) && keeps(&list, pairs.iter()) && (contradicted || !keeps(&list, held.iter())) {
            return false;
        }
        if !second::orders::next_permutation(&mut list) {
            return true;
        }
    }
}
