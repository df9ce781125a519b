//! The plain machine: runs worked out by hand, and all lists of steps against all orders of small traces.

use second::families::{family, text};
use second::orders::{judge, next_permutation};
use second::plain::{has_machine, run, some_steps, steps_of, Ran};
use second::reader::read;
use second::trace::{text_of, Model, Trace};

fn trace(text: &str) -> Trace {
    read(text.as_bytes()).expect("a good text")
}

const BUFFERS: &str = "0: M[0] := 1\n0: M[1] == 0\n1: M[1] := 1\n1: M[0] == 0\n";

#[test]
fn steps_by_hand() {
    let buffers = trace(BUFFERS);
    assert_eq!(run(&buffers, Model::Tso, &[0, 0, 1, 1]), Ran::Done(false), "both stores wait");
    assert_eq!(run(&buffers, Model::Tso, &[0, 0, 1, 1, 8, 9]), Ran::Done(true));
    assert_eq!(run(&buffers, Model::Tso, &[0, 8, 1, 0, 1]), Ran::Stuck(4), "1 is in memory by then");
    assert_eq!(run(&buffers, Model::Tso, &[0, 0, 0]), Ran::Stuck(2), "no record left");
    assert_eq!(run(&buffers, Model::Tso, &[8]), Ran::Stuck(0), "nothing to empty");
    assert_eq!(run(&buffers, Model::Sc, &[0, 8]), Ran::Stuck(1), "nothing waits under SC");
    assert_eq!(run(&buffers, Model::Sc, &[0, 0, 1, 1]), Ran::Stuck(3));
    assert_eq!(run(&buffers, Model::Sc, &[]), Ran::Done(false));
    assert_eq!(run(&trace(""), Model::Sc, &[]), Ran::Done(true));
    assert_eq!(run(&trace(""), Model::Sc, &[16]), Ran::Stuck(0));
    let own = trace("0: M[0] := 1\n0: M[0] := 2\n0: M[0] == 2\n0: sync\n0: { M[0] == 2; M[0] := 3 }\n");
    assert_eq!(run(&own, Model::Tso, &[0, 0, 0, 0]), Ran::Stuck(3), "a fence while entries wait");
    assert_eq!(run(&own, Model::Tso, &[0, 0, 0, 8, 0]), Ran::Stuck(4), "the second entry still waits");
    assert_eq!(run(&own, Model::Tso, &[0, 0, 0, 8, 8, 0, 0]), Ran::Done(true));
    let swap = trace("0: M[0] := 1\n0: { M[1] == 0; M[1] := 3 }\n");
    assert_eq!(run(&swap, Model::Tso, &[0, 0]), Ran::Stuck(1), "a swap while an entry waits");
}

#[test]
fn orders_by_hand() {
    let buffers = trace(BUFFERS);
    assert_eq!(steps_of(&buffers, Model::Tso, &[1, 2, 3, 0]), Some(vec![0, 0, 1, 9, 1, 8]));
    assert_eq!(steps_of(&buffers, Model::Sc, &[1, 2, 3, 0]), None);
    assert_eq!(steps_of(&trace("0: sync\n1: sync\n"), Model::Tso, &[]), Some(vec![0, 1]));
}

/// Small traces: some list of steps runs one through exactly where some permutation is an order, and the steps of every order run through.
#[test]
fn all_steps_against_all_orders() {
    let (mut with, mut without) = (0, 0);
    for name in ["dense", "weak"] {
        let family = family(name).expect("a family");
        for trace in (0..6_000).filter_map(|case| read(&text(family, 78, case)).ok()) {
            if trace.operations().len() > 6 {
                continue;
            }
            for model in Model::KNOWN.into_iter().filter(|&model| has_machine(model)) {
                let mut list = trace.operations();
                let mut orders = 0;
                loop {
                    if judge(&trace, model, &list) {
                        let steps = steps_of(&trace, model, &list).expect("an order");
                        assert_eq!(run(&trace, model, &steps), Ran::Done(true), "{model:?} {list:?}\n{}", shown(&trace));
                        orders += 1;
                    } else {
                        assert_eq!(steps_of(&trace, model, &list), None);
                    }
                    if !next_permutation(&mut list) {
                        break;
                    }
                }
                assert_eq!(some_steps(&trace, model), orders > 0, "{model:?}\n{}", shown(&trace));
                *(if orders > 0 { &mut with } else { &mut without }) += 1;
            }
        }
    }
    assert!(with > 100 && without > 100, "{with} with an order, {without} without");
}

fn shown(trace: &Trace) -> String {
    String::from_utf8(text_of(trace)).expect("letters")
}
