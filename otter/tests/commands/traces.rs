//! The stored answers of the program at the bench: otter says the same of every trace in tests/traces and tests/replays.

use super::{root, shell};
use std::fs;
use std::path::PathBuf;

/// The texts in a directory, by name.
fn texts(directory: &str) -> Vec<PathBuf> {
    let mut texts: Vec<PathBuf> = fs::read_dir(root().join(directory)).unwrap().map(|entry| entry.unwrap().path()).collect();
    texts.retain(|path| path.extension().is_some_and(|end| end == "txt"));
    texts.sort();
    texts
}

/// The program's answer as `check --long` words it: `SC circle .., TSO order ..`; of a refusal the number and the line.
fn reworded(answer: &str) -> String {
    let lines: Vec<String> = answer.lines().map(|line| line.replace(": no order, ", " ").replace(": ", " ")).collect();
    lines.join(", ")
}

#[test]
fn every_trace_gets_the_programs_answer() {
    let said = shell("otter check -q --long --model sc,tso,pso,wmo tests/traces", &root());
    let texts = texts("tests/traces");
    assert_eq!(said.out.lines().count(), texts.len());
    for (line, path) in said.out.lines().zip(&texts) {
        let answer = reworded(&fs::read_to_string(path.with_extension("out")).unwrap());
        let (file, words) = line.split_once(": ").unwrap();
        assert!(path.ends_with(file), "{line}");
        let same = if answer.starts_with("refused") { words.starts_with(&format!("{answer} (")) } else { words == answer };
        assert!(same, "{line}\n{answer}");
    }
}

#[test]
fn every_replay_is_the_programs() {
    let texts = texts("tests/replays");
    assert!(texts.len() > 3);
    for path in texts {
        let answer = fs::read_to_string(path.with_extension("out")).unwrap();
        let said = shell(&format!("otter replay {}", path.display()), &root());
        match answer.starts_with("refused") {
            true => assert_eq!((said.out.as_str(), said.status, said.err.contains(answer.trim())), ("", 2, true)),
            false => assert_eq!(said.out, answer),
        }
    }
}

/// Every faulty trace has a picture and sentences under every model, and a good one says that it is good.
#[test]
fn every_trace_is_drawn_and_explained() {
    let words = "for t in tests/traces/*.txt; do for m in sc tso pso wmo; do
        otter check -q $t --model $m >/dev/null; c=$?
        otter explain $t --model $m >/dev/null 2>&1; e=$?
        otter show $t --model $m --dot - >/dev/null 2>&1; s=$?
        [ $c = $e ] && [ $c = $s ] || echo $t $m $c $e $s
    done; done";
    let said = shell(words, &root());
    assert_eq!((said.out.as_str(), said.status), ("", 0));
}
