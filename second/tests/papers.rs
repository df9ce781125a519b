//! Papers: those of this package are accepted where there is no order, and none where there is one.

use second::chance::Chance;
use second::families::{text, FAMILIES};
use second::papers::{accepted, damaged, written};
use second::reader::read;
use second::stated::KNOT;
use second::trace::{Model, Trace};
use second::verdict::{verdict, Verdict};

fn trace(text: &[u8]) -> Option<Trace> {
    read(text).ok()
}

/// docs/PAPERS.md: KNOT's list whole.
const KNOT_PAPER: [u16; 150] = [
    8, 0, 12, 0, 1, 6, 11, 0, 7, 11, 12, 1, 0, 1, 12, 13, 0, 2, 13, 1, 0, 1, 1, 3, 0, 2, 3, 18, 0, 1, 18, 19, 0, 6, 6, 16, 7, 1, 2, 3, 4,
    5, 6, 7, 1, 16, 17, 0, 2, 17, 7, 0, 1, 7, 11, 0, 1, 1, 5, 0, 6, 16, 6, 7, 9, 10, 11, 2, 3, 4, 12, 0, 6, 6, 2, 8, 13, 1, 6, 9, 0, 2, 9,
    14, 0, 1, 14, 15, 0, 7, 15, 0, 1, 0, 1, 0, 3, 0, 2, 3, 18, 0, 1, 18, 19, 0, 6, 6, 16, 7, 1, 2, 3, 4, 5, 6, 7, 1, 16, 17, 0, 2, 17, 7,
    0, 1, 7, 9, 0, 1, 0, 5, 0, 6, 16, 6, 7, 9, 10, 11, 2, 3, 4, 12, 0, 6, 6, 2, 8, 13,
];

#[test]
fn knot() {
    let knot = trace(KNOT.as_bytes()).expect("good");
    assert!(accepted(&knot, Model::Sc, &KNOT_PAPER) && accepted(&knot, Model::Tso, &KNOT_PAPER));
    assert!(!accepted(&knot, Model::Sc, &KNOT_PAPER[..149]));
    for (at, &number) in KNOT_PAPER.iter().enumerate() {
        let mut list = KNOT_PAPER;
        list[at] = number + 1;
        // Other rests of an entry may lead to the same: here none does.
        assert!(!accepted(&knot, Model::Sc, &list), "place {at}");
    }
}

#[test]
fn own_papers_are_accepted_and_only_where_there_is_no_order() {
    let (mut faulty, mut with_splits, mut still) = (0, 0, 0);
    for case in 0..12 {
        for family in FAMILIES.iter().filter(|family| !family.seldom) {
            let Some(trace) = trace(&text(family, 11, case)) else { continue };
            let mut chance = Chance::new(case);
            for &model in Model::all() {
                let told = verdict(&trace, model.number(), 20_000).expect("a good trace");
                match (&told, written(&trace, model)) {
                    (Verdict::Order(_), paper) => assert_eq!(paper, None, "{} {case}", family.name),
                    (Verdict::Circle(_) | Verdict::NoneLeft, Some(paper)) => {
                        assert!(accepted(&trace, model, &paper), "{} {case}", family.name);
                        faulty += 1;
                        with_splits += usize::from(paper[0] == 8);
                        still += usize::from((0..3).any(|_| accepted(&trace, model, &damaged(&mut chance, &paper))));
                    }
                    (Verdict::Circle(_), None) => panic!("a circle has a paper: {} {case}", family.name),
                    _ => {}
                }
            }
        }
    }
    println!("{faulty} papers, {with_splits} with splits, {still} accepted though damaged");
    assert!(faulty > 100 && with_splits > 3);
}
