//! Runs the program at the repository's root, and keeps tables to give it.

#[allow(dead_code)]
pub mod json;

use std::ffi::OsStr;
use std::fs;
use std::path::{Path, PathBuf};
use std::process::{Command, Output};

/// What a run leaves behind.
#[derive(Debug, PartialEq, Eq)]
pub struct Run {
    pub status: i32,
    pub out: String,
    pub err: String,
}

impl From<Output> for Run {
    fn from(output: Output) -> Self {
        Run {
            status: output.status.code().expect("no signal ends the program"),
            out: String::from_utf8(output.stdout).expect("results are text"),
            err: String::from_utf8(output.stderr).expect("complaints are text"),
        }
    }
}

/// The program, at the repository's root.
pub fn program() -> Command {
    let mut command = Command::new(env!("CARGO_BIN_EXE_chukkanalli"));
    command.current_dir(root());
    command
}

pub fn root() -> PathBuf {
    Path::new(env!("CARGO_MANIFEST_DIR")).join("../..")
}

pub fn run<S: AsRef<OsStr>>(args: impl IntoIterator<Item = S>) -> Run {
    program().args(args).output().expect("the program can be run").into()
}

/// Runs the words of a line.
#[allow(dead_code)]
pub fn run_line(line: &str) -> Run {
    run(line.split_whitespace())
}

/// Writes a table that this test alone uses, and gives its path.
#[allow(dead_code)]
pub fn table(name: &str, bytes: impl AsRef<[u8]>) -> String {
    let path = Path::new(env!("CARGO_TARGET_TMPDIR")).join(name);
    fs::write(&path, bytes).expect("the tests' folder can be written");
    path.to_str().expect("the tests' folder has a name of text").to_string()
}

/// An empty folder that this test alone uses.
#[allow(dead_code)]
pub fn folder(name: &str) -> PathBuf {
    empty(Path::new(env!("CARGO_TARGET_TMPDIR")).join(name))
}

/// One outside the repository, where `rt ci` refuses a link and takes every file of Rattle for one of a crate.
#[allow(dead_code)]
pub fn folder_outside(name: &str) -> PathBuf {
    empty(std::env::temp_dir().join(format!("chukkanalli-{name}-{}", std::process::id())))
}

#[allow(dead_code)]
fn empty(path: PathBuf) -> PathBuf {
    let _ = fs::remove_dir_all(&path);
    fs::create_dir_all(&path).expect("the tests' folder can be written");
    path
}
