//! Which files a command is about.

use std::ffi::OsString;
use std::fs::{self, File};
use std::io::{self, BufRead, BufReader};
use std::os::unix::ffi::OsStringExt;
use std::path::{Path, PathBuf};

/// What traces in a directory are called.
const TRACES: [&str; 2] = ["txt", "pyr"];

/// Files and directories, and how to take a part of them.
#[derive(clap::Args)]
pub struct Files {
    /// Traces, and directories that are looked through for *.txt and *.pyr, names sorted; - is one trace on standard input
    #[arg(value_name = "FILE|DIR")]
    paths: Vec<PathBuf>,
    /// More of them from LIST, a path to a line; - is standard input
    #[arg(long, value_name = "LIST")]
    from_file: Option<PathBuf>,
    /// The paths of LIST end with byte 0 (find -print0)
    #[arg(short = '0', long, requires = "from_file")]
    null: bool,
    /// Only every N-th trace from the I-th on, counted from 0: the part of machine I of N
    #[arg(long, value_name = "I/N", value_parser = shard)]
    shard: Option<(usize, usize)>,
}

fn shard(word: &str) -> Result<(usize, usize), String> {
    let parts = word.split_once('/').and_then(|(i, n)| Some((i.parse().ok()?, n.parse().ok()?)));
    parts.filter(|(i, n)| i < n).ok_or_else(|| "wants I/N with I below N".to_string())
}

impl Files {
    /// Every trace in the order given. None at all is an error: an empty night is not a good one.
    pub fn found(&self) -> Result<Vec<PathBuf>, Box<dyn std::error::Error>> {
        let mut files = Vec::new();
        for path in &self.paths {
            walk(path, &mut files);
        }
        if let Some(list) = &self.from_file {
            let paths =
                listed(list, if self.null { 0 } else { b'\n' }).map_err(|error| format!("{}: unreadable: {error}", list.display()))?;
            paths.iter().for_each(|path| walk(path, &mut files));
        }
        if let Some((i, n)) = self.shard {
            files = files.into_iter().skip(i).step_by(n).collect();
        }
        if files.is_empty() {
            return Err("no trace to judge".into());
        }
        Ok(files)
    }
}

/// A file itself; of a directory what lies in it. What cannot be looked through stays in the list, so that it shows as unreadable.
fn walk(path: &Path, files: &mut Vec<PathBuf>) {
    match inside(path) {
        Err(_) => files.push(path.to_path_buf()),
        Ok(entries) => entries.iter().for_each(|entry| walk(entry, files)),
    }
}

/// The directories and traces in a directory, by name. Links to directories are not followed: they may lead back.
fn inside(path: &Path) -> io::Result<Vec<PathBuf>> {
    let mut entries = Vec::new();
    for entry in fs::read_dir(path)? {
        let entry = entry?;
        let trace = entry.path().extension().is_some_and(|end| TRACES.iter().any(|name| end == *name));
        if trace || entry.file_type()?.is_dir() {
            entries.push(entry.path());
        }
    }
    entries.sort();
    Ok(entries)
}

/// The paths of a list, each ended by a byte; empty ones are passed over.
fn listed(list: &Path, end: u8) -> io::Result<Vec<PathBuf>> {
    let input: Box<dyn BufRead> = match list == Path::new("-") {
        true => Box::new(io::stdin().lock()),
        false => Box::new(BufReader::new(File::open(list)?)),
    };
    let paths: io::Result<Vec<Vec<u8>>> = input.split(end).collect();
    Ok(paths?.into_iter().filter(|path| !path.is_empty()).map(|path| PathBuf::from(OsString::from_vec(path))).collect())
}
