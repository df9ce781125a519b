//! The pages say what otter does.

use super::{fresh, root, shell};
use std::fs;

/// The meaning of every number with which a text is turned back stands in a row of docs/GUIDE.md with that number.
#[test]
fn meanings_are_the_guides() {
    let guide = fs::read_to_string(root().join("docs/GUIDE.md")).unwrap();
    let said = shell("otter check -q --json tests/traces | grep '\"number\"' | sed 's/.*\"number\":\\([0-9]*\\),.*\"meaning\":\"\\([^\"]*\\)\".*/\\1 \\2/' | sort -u", &root());
    let mut numbers = 0;
    for line in said.out.lines() {
        let (number, meaning) = line.split_once(' ').unwrap();
        let row = guide.lines().any(|row| row.starts_with(&format!("| {number} |")) && row.contains(meaning));
        assert!(row, "no row of docs/GUIDE.md says {line}");
        numbers += 1;
    }
    assert_eq!(numbers, 10, "{}", said.out);
}

/// The recipe of docs/NIGHT.md, with two workers on this machine: the block behind the sentence that says so.
#[test]
fn the_recipe_of_the_night_works() {
    let page = fs::read_to_string(root().join("docs/NIGHT.md")).unwrap();
    let behind = &page[page.find("## Over several machines").unwrap()..];
    let recipe: String = behind
        .lines()
        .skip_while(|line| !line.starts_with("    "))
        .take_while(|line| line.starts_with("    "))
        .map(|line| format!("{}\n", line.trim_start()))
        .collect();
    assert!(recipe.contains("parallel") && recipe.contains("MACHINES=2/:"), "{recipe}");
    let directory = fresh("recipe");
    super::night::generated(&directory.join("night"), 40, 3);
    let said = shell(&recipe, &directory);
    let alone = shell("otter check -q --json night", &directory);
    assert_eq!(said.status, alone.status, "{}", said.err);
    let night = fs::read_to_string(directory.join("night.json")).unwrap();
    assert_eq!(night.lines().last(), alone.out.lines().last());
    assert!(fs::read_to_string(directory.join("night.html")).unwrap().contains("A night of 40 traces"));
}

/// Where the packages are missing and apt-get brings nothing, a line says which, and nothing is written.
#[test]
fn missing_packages_are_told() {
    let directory = fresh("packages");
    let words = "mkdir bin; for tool in dpkg-query apt-get; do printf '#!/bin/sh\\necho no network >&2\\nexit 100\\n' > bin/$tool; chmod +x bin/$tool; done";
    assert_eq!(shell(words, &directory).status, 0);
    let script = root().join("otter/packages");
    let said = shell(&format!("PATH=$PWD/bin:$PATH {} cargo.toml; echo = $?; ls", script.display()), &directory);
    assert_eq!(said.out, "= 1\nbin\n");
    let last = said.err.lines().last().unwrap_or_default();
    assert!(last.starts_with("otter/packages: not installed, and apt-get does not bring them: librust-clap-dev "), "{last}");
}

/// What README.md shows is what otter says: a command, an empty line, and its whole output.
#[test]
fn readme_shows_real_output() {
    let page = fs::read_to_string(root().join("README.md")).unwrap();
    let lines: Vec<&str> = page.lines().collect();
    let mut shown = 0;
    for (i, line) in lines.iter().enumerate() {
        let Some(words) = line.strip_prefix("    target/otter ") else { continue };
        if words.contains("--svg") {
            continue;
        }
        let block: Vec<String> = lines[i + 2..].iter().map_while(|line| line.strip_prefix("    ")).map(super::stored::timeless).collect();
        let said = shell(&format!("otter {words} 2>&1"), &root());
        let now: Vec<String> = said.out.lines().map(super::stored::timeless).collect();
        assert_eq!(block, now);
        shown += 1;
    }
    assert_eq!(shown, 2);
}

/// The words of the picture in README.md are those of a fresh one.
#[test]
fn the_picture_is_up_to_date() {
    let words = |svg: &str| -> Vec<String> {
        svg.lines().filter(|line| line.starts_with("<text")).map(|line| line[line.find('>').unwrap()..].to_string()).collect()
    };
    let stored = words(&fs::read_to_string(root().join("docs/otter.svg")).unwrap());
    let fresh = words(&shell("otter show examples/store-buffers.txt --model sc", &root()).out);
    assert!(stored.len() > 10);
    assert_eq!(stored, fresh);
}
