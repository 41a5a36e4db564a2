//! Commands as they are typed at the top of the repository.

use std::fs;
use std::path::{Path, PathBuf};
use std::process::Command;

pub fn root() -> PathBuf {
    Path::new(env!("CARGO_MANIFEST_DIR")).join("..")
}

pub fn read(path: &str) -> String {
    fs::read_to_string(root().join(path)).unwrap_or_else(|error| panic!("{path}: {error}"))
}

/// What a command printed, and how it ended.
#[derive(Debug, PartialEq, Eq)]
pub struct Said {
    pub output: String,
    pub errors: String,
    pub status: i32,
}

/// An empty folder for what one test's commands write.
pub fn folder(name: &str) -> PathBuf {
    let folder = Path::new(env!("CARGO_TARGET_TMPDIR")).join(name);
    // Whatever an earlier run has left there.
    let _ = fs::remove_dir_all(&folder);
    fs::create_dir_all(&folder).unwrap();
    folder
}

/// Runs a line of the shell; `$tmp` is a folder for what it writes.
pub fn run(line: &str) -> Said {
    run_in(Path::new(env!("CARGO_TARGET_TMPDIR")), line)
}

/// The same with a folder of its own.
pub fn run_in(folder: &Path, line: &str) -> Said {
    let said = Command::new("bash")
        .args(["-o", "pipefail", "-c", line])
        .current_dir(root())
        .env("tmp", folder)
        .output()
        .unwrap();
    Said {
        output: String::from_utf8(said.stdout).unwrap(),
        errors: String::from_utf8(said.stderr).unwrap(),
        status: said.status.code().unwrap_or(-1),
    }
}
