//! otter as people start it, against the built library: whole outputs on stored traces, a generated night, files that cannot be read, a run that
//! was killed.

mod guide;
mod night;
mod stored;
mod traces;

use std::path::{Path, PathBuf};
use std::process::Command;

/// The repository, in which every command is started.
fn root() -> PathBuf {
    Path::new(env!("CARGO_MANIFEST_DIR")).join("..")
}

/// A new empty directory of this test's own.
fn fresh(name: &str) -> PathBuf {
    let path = Path::new(env!("CARGO_TARGET_TMPDIR")).join(name);
    let _ = std::fs::remove_dir_all(&path);
    std::fs::create_dir_all(&path).unwrap();
    path
}

/// What a command came to.
struct Said {
    out: String,
    err: String,
    status: i32,
}

/// Words of the shell, in a directory, with otter on the path.
fn shell(words: &str, directory: &Path) -> Said {
    let otter = Path::new(env!("CARGO_BIN_EXE_otter")).parent().unwrap();
    let path = format!("{}:{}", otter.display(), std::env::var("PATH").unwrap());
    let done = Command::new("bash").args(["-o", "pipefail", "-c", words]).current_dir(directory).env("PATH", path).output().unwrap();
    let text = |bytes: Vec<u8>| String::from_utf8(bytes).unwrap();
    Said { out: text(done.stdout), err: text(done.stderr), status: done.status.code().unwrap_or(-1) }
}
