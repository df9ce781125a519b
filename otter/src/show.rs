//! `otter show`: a trace and its fault as a picture.

use crate::explain::Story;
use crate::input;
use crate::memory::Memory;
use crate::picture::Picture;
use crate::status::{self, Done};
use std::fs;
use std::io::{self, Write};
use std::path::{Path, PathBuf};

/// Draw a trace: a column a core, the records with their numbers, and the circle's edges in colour with their rules
#[derive(clap::Args)]
#[command(after_help = status::HELP)]
pub struct Options {
    /// The trace; - is standard input
    file: PathBuf,
    /// The model that the memory promises
    #[arg(short, long, value_enum, default_value = "tso")]
    model: Memory,
    /// Only the records of the circle, with how many lie between
    #[arg(short, long)]
    short: bool,
    /// Write the picture as SVG to OUT, - is standard output; this is done where nothing else is asked
    #[arg(long, value_name = "OUT")]
    svg: Option<PathBuf>,
    /// Write the picture as PNG to OUT
    #[arg(long, value_name = "OUT")]
    png: Option<PathBuf>,
    /// Write the text for Graphviz's neato to OUT; this needs no Graphviz
    #[arg(long, value_name = "OUT")]
    dot: Option<PathBuf>,
}

/// To a file, or to standard output for `-`.
pub fn write(path: &Path, bytes: &[u8]) -> Result<(), Box<dyn std::error::Error>> {
    if path == Path::new("-") {
        io::stdout().lock().write_all(bytes)?;
        return Ok(());
    }
    fs::write(path, bytes).map_err(|error| format!("{}: not written: {error}", path.display()).into())
}

pub fn show(options: &Options) -> Done {
    let story = Story::of(&input::trace(&options.file)?, options.model);
    let picture = Picture { story: &story, name: &options.file.to_string_lossy(), short: options.short };
    if let Some(out) = &options.dot {
        write(out, picture.dot().as_bytes())?;
    }
    if let Some(out) = &options.png {
        write(out, &picture.drawn("png")?)?;
    }
    let nothing = options.dot.is_none() && options.png.is_none();
    if let Some(out) = options.svg.as_deref().or(nothing.then_some(Path::new("-"))) {
        write(out, &picture.drawn("svg")?)?;
    }
    Ok(story.status())
}
