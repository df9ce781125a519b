//! What the comparisons are told by words, and which cases they then draw.

use second::families::FAMILIES;
use second::plan::{missed, shown, Plan};
use std::time::Duration;

fn plan(words: &str) -> Option<Plan> {
    Plan::of(words.split_whitespace().map(str::to_string))
}

#[test]
fn words_of_a_plan() {
    let told =
        plan("--seed 7 --seconds 3 --family knot --family sc --threads 4 --steps 9 --patience 1 -- program --cases").expect("of the form");
    assert_eq!((told.seed, told.time, told.threads, told.steps), (7, Some(Duration::from_secs(3)), 4, 9));
    assert_eq!(told.families.iter().map(|family| family.name).collect::<Vec<_>>(), ["knot", "sc"]);
    assert_eq!(told.program, ["program", "--cases"]);
    assert_eq!(plan("").map(|plan| (plan.cases, plan.families.len())), Some((1_000, FAMILIES.len())));
    for wrong in ["--seed", "--seed x", "--family nobody", "--threads 0", "seconds 3", "--second 3"] {
        assert!(plan(wrong).is_none(), "{wrong}");
    }
}

#[test]
fn cases_go_round_the_families() {
    let told = plan("--family knot --family sc --cases 5").expect("of the form");
    let drawn: Vec<(&str, u64)> = std::iter::from_fn(|| told.next().map(|(family, case)| (family.name, case))).collect();
    assert_eq!(drawn, [("knot", 0), ("sc", 0), ("knot", 1), ("sc", 1), ("knot", 2)]);
    assert!(plan("--seconds 0").expect("of the form").next().is_none(), "the time is up");
}

#[test]
fn few_may_be_skipped() {
    assert_eq!((missed(0, 0), missed(0, 10), missed(2, 10), missed(3, 27), missed(20, 200)), (0, 0, 0, 0, 0));
    assert_eq!((missed(1, 0), missed(3, 26), missed(3, 0), missed(25, 200)), (1, 3, 3, 25));
}

#[test]
fn bytes_are_shown_readably() {
    assert_eq!(shown(b"0: \"x'\n\xff"), "0: \"x'\\n\n\\xff");
    assert!(shown(&[b'0'; 7_000]).ends_with("000 ..."));
}
