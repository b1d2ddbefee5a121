//! Runs the built command `chooser`, and gives folders for its files.

use std::env;
use std::ffi::OsStr;
use std::fs;
use std::io::Write;
use std::ops::Deref;
use std::path::{Path, PathBuf};
use std::process::{Command, Stdio};
use std::thread;

use crate::places::root;

pub mod json;

/// The folder of what the running test was built with.
fn built() -> PathBuf {
    let test = env::current_exe().expect("this test has a file");
    test.ancestors().nth(2).expect("target/release/deps").into()
}

/// The built command, which cargo builds before it runs a test of the package `chooser`.
pub fn chooser() -> PathBuf {
    built().join("chooser")
}

/// How a run ended.
#[derive(Debug)]
pub struct Ended {
    pub status: Option<i32>,
    pub out: Vec<u8>,
    pub err: String,
}

impl Ended {
    /// What was printed to standard output, as text.
    pub fn text(&self) -> &str {
        std::str::from_utf8(&self.out).expect("standard output is text")
    }

    /// Asserts this status.
    pub fn with(self, status: i32) -> Ended {
        assert_eq!(self.status, Some(status), "{}{}", self.text(), self.err);
        self
    }

    /// Asserts that standard error has each of these parts.
    pub fn tells(self, parts: &[&str]) -> Ended {
        for part in parts {
            assert!(self.err.contains(part), "no '{part}' in: {}", self.err);
        }
        self
    }
}

/// Runs the command in the repository's root with these bytes as standard input.
pub fn run_with<S: AsRef<OsStr>>(words: &[S], input: &[u8]) -> Ended {
    run_in(&root(), words, input)
}

/// Runs the command in a folder with these bytes as standard input.
pub fn run_in<S: AsRef<OsStr>>(folder: &Path, words: &[S], input: &[u8]) -> Ended {
    let mut process = Command::new(chooser())
        .args(words)
        .current_dir(folder)
        .stdin(Stdio::piped())
        .stdout(Stdio::piped())
        .stderr(Stdio::piped())
        .spawn()
        .expect("the command starts");
    let mut stdin = process.stdin.take().expect("standard input is piped");
    let input = input.to_vec();
    // A thread writes, so that neither side waits for the other; the command may stop reading early.
    let writer = thread::spawn(move || drop(stdin.write_all(&input)));
    let output = process.wait_with_output().expect("the command ends");
    writer.join().expect("the writer ends");
    Ended {
        status: output.status.code(),
        out: output.stdout,
        err: String::from_utf8_lossy(&output.stderr).into_owned(),
    }
}

/// Runs the command with empty standard input.
pub fn run<S: AsRef<OsStr>>(words: &[S]) -> Ended {
    run_with(words, &[])
}

/// The names of all subcommands, from the overview.
pub fn subcommands() -> Vec<String> {
    let overview = run(&["help"]).with(0).text().to_string();
    let (listed, _) = overview
        .split_once("\n\n'chooser help")
        .expect("the list ends");
    let (_, listed) = listed.rsplit_once("\n\n").expect("the list begins");
    let name = |line: &str| line.split_whitespace().next().map(String::from);
    listed.lines().filter_map(name).collect()
}

/// A folder outside of the repository, where `rt ci` wants no links and no second `.git`. It goes with its test.
pub struct Apart(PathBuf);

impl Apart {
    /// An empty one.
    pub fn new(name: &str) -> Apart {
        let name = format!("chooser_{name}_{}", std::process::id());
        Apart(emptied(env::temp_dir().join(name)))
    }
}

impl Deref for Apart {
    type Target = Path;

    fn deref(&self) -> &Path {
        &self.0
    }
}

impl Drop for Apart {
    fn drop(&mut self) {
        drop(fs::remove_dir_all(&self.0));
    }
}

/// An empty folder for a test's files, without links.
pub fn folder(name: &str) -> PathBuf {
    emptied(built().join("../tmp").join(format!("chooser_{name}")))
}

/// The folder, made anew.
fn emptied(folder: PathBuf) -> PathBuf {
    if folder.exists() {
        fs::remove_dir_all(&folder).expect("an old folder can be removed");
    }
    fs::create_dir_all(&folder).expect("a folder can be made");
    folder
}
