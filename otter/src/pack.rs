//! `otter pack` and `otter unpack`: texts to packed files and back.

use crate::input::{self, Turned};
use crate::meaning::refused;
use crate::show::write;
use crate::status::{self, Done};
use std::path::{Path, PathBuf};

/// Pack texts: each into a file of a few bytes a record (docs/GUIDE.md has the layout)
#[derive(clap::Args)]
pub struct Pack {
    #[command(flatten)]
    places: Places,
}

/// Write packed files as texts
#[derive(clap::Args)]
pub struct Unpack {
    #[command(flatten)]
    places: Places,
}

/// From where to where.
#[derive(clap::Args)]
struct Places {
    /// The traces; - is standard input
    #[arg(required = true, value_name = "FILE")]
    files: Vec<PathBuf>,
    /// Where one trace goes; - is standard output
    #[arg(short, long, value_name = "OUT", default_value = "-", conflicts_with = "directory")]
    output: PathBuf,
    /// Where many go: into DIR under their names, ending in .pyr or .txt
    #[arg(short, long, value_name = "DIR")]
    directory: Option<PathBuf>,
}

impl Places {
    /// Where a file's other form goes.
    fn goal(&self, file: &Path, end: &str) -> PathBuf {
        match &self.directory {
            None => self.output.clone(),
            Some(directory) => directory.join(file.file_name().unwrap_or_default()).with_extension(end),
        }
    }

    /// Every file in its other form. What is turned back or unreadable is told, and the others are written all the same.
    fn each(&self, end: &str, form: impl Fn(Vec<u8>) -> Result<Vec<u8>, Turned>) -> Done {
        if self.files.len() > 1 && self.directory.is_none() {
            return Err("more than one file: where to, by --directory?".into());
        }
        let mut status = status::KEPT;
        for file in &self.files {
            let formed = input::read(file)
                .map_err(|error| format!("unreadable: {error}"))
                .and_then(|bytes| form(bytes).map_err(|turned| refused(&turned)));
            match formed {
                Ok(formed) => write(&self.goal(file, end), &formed)?,
                Err(wrong) => {
                    eprintln!("otter: {}: {wrong}", file.display());
                    status = status::UNJUDGED;
                }
            }
        }
        Ok(status)
    }
}

pub fn pack(options: &Pack) -> Done {
    options.places.each("pyr", |text| wheelotter::pack(&text).map_err(Turned::from))
}

pub fn unpack(options: &Unpack) -> Done {
    let form = |file: Vec<u8>| {
        wheelotter::unpack(&file).map_err(|refusal| Turned { answer: refusal.answer, line: refusal.line, part: Vec::new() })
    };
    options.places.each("txt", form)
}
