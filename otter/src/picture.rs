//! A trace as a picture, by Graphviz: a column a core, its records downwards, and the circle's edges with their rules.

use crate::explain::Story;
use std::fmt::Write as _;
use std::io::{self, Write};
use std::process::{Command, Stdio};

/// Points from a column's head to its first row, from row to row, between two columns, and for a letter of the records' font.
const HEAD: usize = 38;
const ROW: usize = 54;
const GAP: usize = 64;
const LETTER: f64 = 6.7;

/// The rules in a few words, and the colours of their edges.
const RULES: [(&str, &str); 9] = [
    ("", "black"),
    ("the core's order", "#444444"),
    ("read from", "#0b6e3a"),
    ("own write before what it read", "#8a4b08"),
    ("read the first value", "#a01c1c"),
    ("own write, first value read", "#a0157e"),
    ("before one that read it", "#5b2a86"),
    ("read before it was overwritten", "#1c4fa0"),
    ("supposed", "black"),
];

/// What is drawn: a story under a name, all its records or only those of the fault.
pub struct Picture<'a> {
    pub story: &'a Story,
    pub name: &'a str,
    pub short: bool,
}

impl Picture<'_> {
    /// The text for Graphviz's neato, with a place for every record.
    pub fn dot(&self) -> String {
        let mut out = String::from("digraph trace {\n");
        let title = format!("{}\n{}", self.name, folded(&self.story.title()));
        let _ = writeln!(
            out,
            "  graph [label={}, labelloc=t, fontname=\"sans-serif\", fontsize=13, splines=true, outputorder=edgesfirst];",
            quoted(&title)
        );
        let _ = writeln!(out, "  node [shape=box, style=\"rounded,filled\", fillcolor=white, fontname=\"monospace\", fontsize=11, fixedsize=true, height=0.36];");
        let _ = writeln!(out, "  edge [fontname=\"sans-serif\", fontsize=12, labeldistance=2];");
        let shown = self.shown();
        let width = shown.iter().map(|i| self.label(*i).len()).max().unwrap_or(6) as f64 * LETTER + 16.0;
        for (column, core) in self.cores(&shown).into_iter().enumerate() {
            self.column(&mut out, core, column as f64 * (width + GAP as f64), width);
        }
        for (x, y, rule) in self.story.edges() {
            let colour = RULES[usize::from(rule)].1;
            // The number stands where no box is: an edge down its own column has one on its outer side.
            let down = self.story.records[x].core == self.story.records[y].core && x < y;
            let look = format!("color=\"{colour}\", fontcolor=\"{colour}\", penwidth=2, labelangle={}", if down { -35 } else { 35 });
            let _ = writeln!(out, "  r{x} -> r{y} [taillabel=\"{rule}\", {look}];");
        }
        self.legend(&mut out, &shown, width);
        out + "}\n"
    }

    /// The rules of the circle in words, below the longest column.
    fn legend(&self, out: &mut String, shown: &[usize], width: f64) {
        let mut rules: Vec<usize> = self.story.edges().into_iter().map(|(_, _, rule)| usize::from(rule)).collect();
        rules.sort();
        rules.dedup();
        let longest = self.cores(shown).into_iter().map(|core| self.own(core).len()).max().unwrap_or(0);
        for (place, rule) in rules.into_iter().enumerate() {
            let (words, colour) = RULES[rule];
            let label = format!("{rule}: {words}");
            let wide = label.len() as f64 * LETTER + 8.0;
            let look = format!(
                "shape=plaintext, style=\"\", fontname=\"sans-serif\", fontcolor=\"{colour}\", width={:.2}, height=0.2",
                wide / 72.0
            );
            let (x, y) = ((wide - width) / 2.0, longest * self.step() + HEAD + 24 * place);
            let _ = writeln!(out, "  rule{rule} [label=\"{label}\\l\", {look}, pos=\"{x:.0},-{y}!\"];");
        }
    }

    /// The records of a core that are drawn.
    fn own(&self, core: usize) -> Vec<usize> {
        self.shown().into_iter().filter(|i| self.story.records[*i].core == core).collect()
    }

    /// From record to record of a core; wider where some are left out, and their number stands between.
    fn step(&self) -> usize {
        if self.short {
            return ROW + ROW / 3;
        }
        ROW
    }

    /// Where there is no circle every record is drawn.
    fn shown(&self) -> Vec<usize> {
        let named = self.story.named();
        (0..self.story.records.len()).filter(|i| !self.short || named.is_empty() || named.contains(i)).collect()
    }

    fn cores(&self, shown: &[usize]) -> Vec<usize> {
        let mut cores: Vec<usize> = shown.iter().map(|i| self.story.records[*i].core).collect();
        cores.sort();
        cores.dedup();
        cores
    }

    fn label(&self, i: usize) -> String {
        format!("{i}  {}", self.story.records[i])
    }

    /// A core's records from the top, and between two that are drawn how many are not.
    fn column(&self, out: &mut String, core: usize, x: f64, width: f64) {
        let _ = writeln!(out, "  core{core} [label=\"core {core}\", shape=plaintext, style=\"\", width=1, pos=\"{x:.0},0!\"];");
        let named = self.story.named();
        let own = self.own(core);
        for (row, i) in own.iter().enumerate() {
            let look = if named.contains(i) { "penwidth=2" } else { "color=grey60, fontcolor=grey30" };
            let y = HEAD + row * self.step();
            let _ = writeln!(out, "  r{i} [label={}, width={:.2}, pos=\"{x:.0},-{y}!\", {look}];", quoted(&self.label(*i)), width / 72.0);
        }
        for pair in own.windows(2) {
            self.between(out, core, pair[0], pair[1]);
        }
    }

    /// A dotted line where records of a core are left out, with how many.
    fn between(&self, out: &mut String, core: usize, from: usize, to: usize) {
        let left = self.story.records[from + 1..to].iter().filter(|record| record.core == core).count();
        if self.short && left > 0 {
            let look = "style=dotted, color=grey60, fontcolor=grey30, fontsize=10, arrowhead=none";
            let _ = writeln!(out, "  r{from} -> r{to} [label=\"{left} more\", {look}];");
        }
    }

    /// Drawn by neato in one of its forms.
    pub fn drawn(&self, form: &str) -> Result<Vec<u8>, String> {
        neato(&self.dot(), form)
            .map_err(|error| format!("cannot draw with Graphviz's neato ({error}): install graphviz, or write the picture's text by --dot"))
    }
}

/// A long list of numbers in lines of some.
fn folded(words: &str) -> String {
    let mut lines = vec![String::new()];
    for word in words.split(' ') {
        let line = lines.last_mut().expect("one at least");
        if line.len() + word.len() > 100 {
            lines.push(word.to_string());
        } else {
            *line += if line.is_empty() { "" } else { " " };
            *line += word;
        }
    }
    lines.join("\n")
}

/// A string of Graphviz's language.
fn quoted(words: &str) -> String {
    format!("\"{}\"", words.replace('\\', "\\\\").replace('"', "\\\"").replace('\n', "\\n"))
}

fn neato(dot: &str, form: &str) -> io::Result<Vec<u8>> {
    let mut child =
        Command::new("neato").args(["-n2", "-T", form]).stdin(Stdio::piped()).stdout(Stdio::piped()).stderr(Stdio::piped()).spawn()?;
    let mut input = child.stdin.take().expect("it is piped");
    let dot = dot.to_string();
    let writer = std::thread::spawn(move || input.write_all(dot.as_bytes()));
    let done = child.wait_with_output()?;
    writer.join().expect("it does not panic")?;
    if !done.status.success() {
        return Err(io::Error::new(io::ErrorKind::Other, String::from_utf8_lossy(&done.stderr).trim().to_string()));
    }
    Ok(done.stdout)
}
