//! A generated night, of which it is known how each trace must come out; parts of it; a run that was killed; files that cannot be read.

use super::{fresh, shell};
use std::fs;
use std::io::{BufRead, BufReader};
use std::path::Path;
use std::process::{Command, Stdio};

/// Numbers by chance, the same for a seed everywhere (splitmix64).
struct Chance(u64);

impl Chance {
    fn below(&mut self, limit: usize) -> usize {
        self.0 = self.0.wrapping_add(0x9E37_79B9_7F4A_7C15);
        let mut mixed = self.0;
        mixed = (mixed ^ (mixed >> 30)).wrapping_mul(0xBF58_476D_1CE4_E5B9);
        mixed = (mixed ^ (mixed >> 27)).wrapping_mul(0x94D0_49BB_1331_11EB);
        ((mixed ^ (mixed >> 31)) % limit as u64) as usize
    }
}

/// How a trace was made, and so how it must come out under every model.
#[derive(Clone, Copy, PartialEq, Eq)]
enum Made {
    /// By one memory, as it ran.
    Good,
    /// One load reads what nobody wrote.
    Lost,
    /// One line is of no form.
    Broken,
}

/// Four cores at one memory, in the order in which they ran; so the order of the lines is a valid one under every model.
fn text(chance: &mut Chance, records: usize, made: Made) -> String {
    let mut memory = [0; 4];
    let mut next = 1;
    let mut lines: Vec<String> = Vec::new();
    for i in 0..records {
        let (core, place) = (if i < 4 { i } else { chance.below(4) }, chance.below(4));
        let read = memory[place];
        lines.push(match chance.below(8) {
            0..=3 => format!("{core}: M[{place}] == {read}"),
            4 => format!("{core}: sync"),
            kind => {
                memory[place] = next;
                next += 1;
                match kind {
                    5 => format!("{core}: {{ M[{place}] == {read}; M[{place}] := {} }}", memory[place]),
                    _ => format!("{core}: M[{place}] := {}", memory[place]),
                }
            }
        });
    }
    let place = 4 + chance.below(records - 4);
    match made {
        Made::Good => {}
        Made::Lost => lines[place] = format!("0: M[0] == {}", 60000 + next),
        Made::Broken => lines[place] = lines[place].replace(' ', "  "),
    }
    lines.iter().map(|line| format!("{line}\n")).collect()
}

fn made(i: usize) -> Made {
    match i % 50 {
        7 => Made::Lost,
        23 => Made::Broken,
        _ => Made::Good,
    }
}

/// So many traces in a directory, and how each was made.
pub fn generated(directory: &Path, count: usize, seed: u64) -> usize {
    fs::create_dir_all(directory).unwrap();
    let mut chance = Chance(seed);
    for i in 0..count {
        let records = 8 + chance.below(40);
        fs::write(directory.join(format!("{i:05}.txt")), text(&mut chance, records, made(i))).unwrap();
    }
    count
}

#[test]
fn a_night_of_2000() {
    let directory = fresh("night-2000");
    generated(&directory.join("night"), 2000, 1);
    let one = shell("otter check -q --json -j 1 --model sc,wmo night", &directory);
    for jobs in [2, 3, 0] {
        let many = shell(&format!("otter check -q --json -j {jobs} --model sc,wmo night"), &directory);
        assert_eq!((many.out == one.out, many.status), (true, 2), "with {jobs} cores");
    }
    let lines: Vec<&str> = one.out.lines().collect();
    assert_eq!(lines.len(), 2001);
    for (i, line) in lines[..2000].iter().enumerate() {
        assert!(line.starts_with(&format!("{{\"file\":\"night/{i:05}.txt\",")), "{line}");
        let found = match made(i) {
            Made::Good => line.matches("\"verdict\":\"order\"").count() == 2,
            Made::Lost => line.matches("\"verdict\":\"no source\"").count() == 2,
            Made::Broken => line.contains("\"state\":\"refused\",\"number\":3,"),
        };
        assert!(found, "{line}");
    }
    assert!(
        lines[2000].contains("\"traces\":2000,\"kept\":1920,\"faulty\":40,\"undecided\":0,\"refused\":40,\"unreadable\":0,"),
        "{}",
        lines[2000]
    );
}

#[test]
fn parts_are_the_whole() {
    let directory = fresh("night-parts");
    generated(&directory.join("night"), 130, 2);
    let whole = shell("otter check -q --json night > whole.json; otter sum whole.json", &directory);
    let parts = shell(
        "find night -name '*.txt' -print0 | sort -z > list
        for i in 0 1 2; do otter check -q --json --from-file list -0 --shard $i/3 > part$i.json; done; otter sum part?.json",
        &directory,
    );
    assert_eq!((whole.status, parts.status), (2, 2));
    assert_eq!(whole.out.lines().last(), parts.out.lines().last());
    let sorted = |text: &str| {
        let mut lines: Vec<String> = text.lines().map(str::to_string).collect();
        lines.sort();
        lines
    };
    assert_eq!(sorted(&whole.out), sorted(&parts.out));
    let again = shell("otter sum whole.json > once.json; otter sum once.json > twice.json; cmp once.json twice.json", &directory);
    assert_eq!(again.status, 0, "{}", again.err);
    let others = shell("otter check -q --json --model sc night > sc.json; otter sum whole.json sc.json", &directory);
    assert_eq!((others.out.as_str(), others.err.as_str(), others.status), ("", "otter: sc.json: about other models than whole.json\n", 2));
}

#[test]
fn a_lost_line_shows() {
    let directory = fresh("night-lost");
    generated(&directory.join("night"), 60, 4);
    let cut = shell("otter check -q --json night > whole.json; sed 3d whole.json > less.json; sed '$d' whole.json > cut.json; head -c -9 whole.json > torn.json", &directory);
    assert_eq!(cut.status, 0);
    for (part, why) in [("less", "59 "), ("cut", "no summary at its end"), ("torn", "no summary at its end")] {
        let said = shell(&format!("otter sum whole.json {part}.json"), &directory);
        let told = if part == "less" { said.err.contains("and its summary counts otherwise") } else { said.err.contains(why) };
        assert_eq!((said.out.as_str(), said.status, told), ("", 2, true), "{}", said.err);
    }
}

#[test]
fn a_killed_run_shows() {
    let directory = fresh("night-killed");
    generated(&directory.join("night"), 20, 5);
    // Nobody ever writes into the pipe, so the run stands there.
    assert_eq!(shell("mkfifo waits; { ls -d night/*; echo waits; ls -d night/*; } > list", &directory).status, 0);
    let mut run = Command::new(env!("CARGO_BIN_EXE_otter"))
        .args(["check", "-q", "--json", "--from-file", "list", "-j", "1"])
        .current_dir(&directory)
        .stdout(Stdio::piped())
        .spawn()
        .unwrap();
    let lines: Vec<String> = BufReader::new(run.stdout.as_mut().unwrap()).lines().take(20).map(Result::unwrap).collect();
    run.kill().unwrap();
    run.wait().unwrap();
    fs::write(directory.join("part.json"), lines.join("\n") + "\n").unwrap();
    let said = shell("otter sum part.json", &directory);
    assert_eq!((said.out.as_str(), said.status), ("", 2));
    assert_eq!(said.err, "otter: part.json: no summary at its end: that run did not end, or is of another otter\n");
}

#[test]
fn an_earlier_night_is_compared_with() {
    let directory = fresh("night-expected");
    generated(&directory.join("night"), 60, 6);
    let same = shell("otter check -q --json night > stored.json; otter check -q --expect stored.json night", &directory);
    assert_eq!((same.out.as_str(), same.status), ("", 0));
    let words = "mv night/00002.txt night/99999.txt; cp night/00007.txt night/00001.txt; cp night/00023.txt night/00003.txt; cp night/00000.txt night/00057.txt
        otter check -q --expect stored.json night";
    let said = shell(words, &directory);
    let expected = "worse night/00001.txt: TSO no source, was TSO order\nworse night/00003.txt: refused, was TSO order\n\
        better night/00057.txt: TSO order, was TSO no source\nnew night/99999.txt: TSO order\ngone night/00002.txt: was TSO order\n";
    assert_eq!((said.out.as_str(), said.status), (expected, 2));
    let cut = shell("sed '$d' stored.json > cut.json; otter check -q --expect cut.json night", &directory);
    assert_eq!((cut.out.as_str(), cut.status), ("", 2));
}

#[test]
fn what_cannot_be_read_is_told() {
    let directory = fresh("night-unreadable");
    let words = "mkdir -p d/e.txt empty; printf '0: sync\\n' > d/a.txt; ln -s nowhere d/b.txt; ln -s .. d/up; printf '\\377\\000\\n' > d/c.txt; head -c 40000 /dev/zero > d/f.txt
        otter check -q d no; echo = $?; otter check -q empty; echo = $?; otter check -q --from-file nolist; echo = $?";
    let said = shell(words, &directory);
    let expected = "d/a.txt: TSO order\nd/b.txt: unreadable: No such file or directory (os error 2)\n\
        d/c.txt: refused 3 line 1 (none of the forms): \u{fffd}\\0\n\
        d/f.txt: refused 1 line 0 (over 32,768 bytes)\n\
        no: unreadable: No such file or directory (os error 2)\n= 2\n= 2\n= 2\n";
    assert_eq!(said.out, expected);
    assert_eq!(said.err, "otter: no trace to judge\notter: nolist: unreadable: No such file or directory (os error 2)\n");
}

#[test]
fn a_closed_pipe_is_quiet() {
    let directory = fresh("night-closed");
    generated(&directory.join("night"), 300, 7);
    let said = shell("otter check -q night night night night | head -n 1", &directory);
    assert_eq!((said.out.as_str(), said.err.as_str()), ("night/00000.txt: TSO order\n", ""));
}
