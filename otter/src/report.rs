//! `otter report`: a night as one page of plain HTML with the pictures in it.

use crate::check::tally::Tally;
use crate::explain::Story;
use crate::files::Files;
use crate::judged::{Judged, State, FOUND, STATES};
use crate::memory::Memory;
use crate::picture::Picture;
use crate::show::write;
use crate::spread::Spread;
use crate::status::{self, Done};
use std::fmt::Write as _;
use std::io;
use std::path::{Path, PathBuf};

/// Write a night as one page: counts, and for each faulty trace its picture and its explanation
#[derive(clap::Args)]
#[command(after_help = status::HELP)]
pub struct Options {
    #[command(flatten)]
    files: Files,
    /// The model that the memory promises
    #[arg(short, long, value_enum, default_value = "tso")]
    model: Memory,
    /// Undecided where the plain search makes more than N steps
    #[arg(long, value_name = "N")]
    steps: Option<u64>,
    /// Where the page goes; - is standard output
    #[arg(long, value_name = "OUT")]
    html: PathBuf,
    /// Faults are results: status 0 for them too
    #[arg(long)]
    exit_zero: bool,
    #[command(flatten)]
    spread: Spread,
}

const HEAD: &str = "<!DOCTYPE html>
<html lang=\"en\">
<head>
<meta charset=\"utf-8\">
<title>A night of traces</title>
<style>
body { font-family: sans-serif; margin: 2em; color: #222; }
table { border-collapse: collapse; margin: 1em 0; }
th, td { border: 1px solid #bbb; padding: 0.4em 0.8em; text-align: left; vertical-align: top; }
td.count { text-align: right; }
pre { margin: 0; white-space: pre-wrap; min-width: 24em; }
svg { max-width: 42vw; height: auto; }
.faulty { color: #a01c1c; }
</style>
</head>
<body>
";

/// Text between marks.
fn plain(words: &str) -> String {
    words.replace('&', "&amp;").replace('<', "&lt;").replace('>', "&gt;")
}

/// The picture itself, out of Graphviz's file: without its head, and without names, which would stand on the page more than once.
fn inline(svg: &[u8]) -> String {
    let text = String::from_utf8_lossy(svg);
    let mut rest = &text[text.find("<svg").unwrap_or(0)..];
    let mut out = String::new();
    while let Some(place) = rest.find(" id=\"") {
        out += &rest[..place];
        let behind = &rest[place + 5..];
        rest = &behind[behind.find('"').map_or(0, |end| end + 1)..];
    }
    out + rest
}

/// A row: the file and what was found, the picture and the sentences. A picture that cannot be drawn is said there.
fn row(path: &Path, text: &[u8], memory: Memory) -> String {
    let name = path.to_string_lossy();
    let story = Story::of(&String::from_utf8_lossy(text), memory);
    let picture = Picture { story: &story, name: &name, short: true };
    let drawn = picture.drawn("svg").map_or_else(|error| plain(&error), |svg| inline(&svg));
    let sentences: Vec<String> = story.sentences().iter().map(|sentence| plain(sentence)).collect();
    format!("<tr><td>{}</td><td>\n{drawn}</td><td><pre>{}</pre></td></tr>\n", plain(&name), sentences.join("\n"))
}

/// A table of counts: a row of names and a row of numbers.
fn counts(names: &[&str], numbers: &[u64]) -> String {
    let heads: String = names.iter().map(|name| format!("<th>{name}</th>")).collect();
    let cells: String = numbers.iter().map(|number| format!("<td class=\"count\">{number}</td>")).collect();
    format!("<table>\n<tr>{heads}</tr>\n<tr>{cells}</tr>\n</table>\n")
}

/// What the page is made of, as the traces come.
struct Page {
    tally: Tally,
    faulty: String,
    unjudged: String,
}

impl Page {
    fn take(&mut self, path: &Path, judged: &Judged, row: &str) {
        self.tally.count(judged);
        match judged.state() {
            State::Kept => {}
            State::Faulty => self.faulty += row,
            _ => {
                let _ =
                    writeln!(self.unjudged, "<tr><td>{}</td><td>{}</td></tr>", plain(&path.to_string_lossy()), plain(&judged.words(true)));
            }
        }
    }

    fn html(&self, memory: Memory) -> String {
        let tally = &self.tally;
        let mut out = HEAD.to_string();
        let _ = writeln!(out, "<h1>A night of {} under {}</h1>", tally.traces(), memory.name());
        out += &counts(&STATES.map(State::name), &tally.states());
        let _ = writeln!(out, "<p>Found under {}:</p>", memory.name());
        out += &counts(&FOUND, &tally.found(0));
        if !self.faulty.is_empty() {
            out += "<h2 class=\"faulty\">Faulty</h2>\n<table>\n<tr><th>trace</th><th>picture</th><th>explanation</th></tr>\n";
            out += &self.faulty;
            out += "</table>\n";
        }
        if !self.unjudged.is_empty() {
            out += "<h2>Not judged</h2>\n<table>\n<tr><th>trace</th><th>why</th></tr>\n";
            out += &self.unjudged;
            out += "</table>\n";
        }
        let _ = writeln!(out, "<p>otter {}; every verdict comes from the proved library.</p>\n</body>\n</html>", env!("CARGO_PKG_VERSION"));
        out
    }
}

/// What a worker does for a trace: its verdict, and the row of a faulty one.
fn judged(path: &Path, options: &Options) -> (Judged, String) {
    let (judged, text) = Judged::file(path, &[options.model], options.steps);
    let row = if judged.state() == State::Faulty { row(path, &text, options.model) } else { String::new() };
    (judged, row)
}

pub fn report(options: &Options) -> Done {
    let files = options.files.found()?;
    let mut page = Page { tally: Tally::of(&[options.model]), faulty: String::new(), unjudged: String::new() };
    let take = |path: &PathBuf, (judged, row): (Judged, String)| -> io::Result<()> {
        page.take(path, &judged, &row);
        Ok(())
    };
    options.spread.over(&files, |path| judged(path, options), take)?;
    write(&options.html, page.html(options.model).as_bytes())?;
    Ok(crate::check::eased(page.tally.status(), options.exit_zero))
}
