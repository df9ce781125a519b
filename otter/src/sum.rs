//! `otter sum`: the parts of a night, judged on several machines, as one.

use crate::check::tally::Tally;
use crate::status::Done;
use std::io::{self, Write};
use std::path::PathBuf;

/// Add up the parts of a night: the lines of traces that are not kept, then one summary
///
/// A part without its last line is of a run that did not end, and is refused; so is one whose lines are not as many as it counts, or that is about
/// other models. Lines of kept traces may all be left out, as by check --faults and by sum itself.
#[derive(clap::Args)]
pub struct Options {
    /// What check --json wrote
    #[arg(required = true, value_name = "PART")]
    parts: Vec<PathBuf>,
    /// Faults are results: status 0 for them too
    #[arg(long)]
    exit_zero: bool,
}

/// The last line, and those before it. What is behind the last line feed was cut off, and is the last line then.
pub fn parted(text: &str) -> (&str, std::str::Lines<'_>) {
    let whole = text.strip_suffix('\n').unwrap_or("");
    let start = whole.rfind('\n').map_or(0, |place| place + 1);
    (&whole[start..], text[..start].lines())
}

/// A part: its counts, and the lines of the traces that are not kept.
fn part(path: &PathBuf) -> Result<(Tally, Vec<String>), String> {
    let name = path.display();
    let text = std::fs::read_to_string(path).map_err(|error| format!("{name}: unreadable: {error}"))?;
    let (last, lines) = parted(&text);
    let tally = Tally::read(last).ok_or_else(|| format!("{name}: no summary at its end: that run did not end, or is of another otter"))?;
    let (kept, others): (Vec<&str>, Vec<&str>) = lines.partition(|line| line.contains("\"state\":\"kept\""));
    let lost = tally.all() - tally.kept() != others.len() as u64 || ![0, tally.kept()].contains(&(kept.len() as u64));
    if lost {
        return Err(format!("{name}: {} kept and {} other lines, and its summary counts otherwise: {last}", kept.len(), others.len()));
    }
    Ok((tally, others.into_iter().map(str::to_string).collect()))
}

pub fn sum(options: &Options) -> Done {
    let parts: Result<Vec<(Tally, Vec<String>)>, String> = options.parts.iter().map(part).collect();
    let parts = parts?;
    let mut all = parts[0].0.clone();
    for ((tally, _), path) in parts.iter().zip(&options.parts).skip(1) {
        all = all.and(tally).ok_or_else(|| format!("{}: about other models than {}", path.display(), options.parts[0].display()))?;
    }
    let mut out = io::stdout().lock();
    for line in parts.iter().flat_map(|(_, lines)| lines) {
        writeln!(out, "{line}")?;
    }
    writeln!(out, "{}", all.json())?;
    Ok(crate::check::eased(all.status(), options.exit_zero))
}
