//! Runs command lines in bash, for tests of scripts.

use std::path::Path;
use std::process::{Command, Output};

/// Runs a command line in a folder, with these settings.
pub fn bash(folder: &Path, line: &str, settings: &[(&str, &str)]) -> Output {
    Command::new("bash")
        .args(["-c", line])
        .envs(settings.iter().copied())
        .current_dir(folder)
        .output()
        .expect("bash starts")
}

/// All that a run printed.
pub fn printed(output: &Output) -> String {
    let [out, err] = [&output.stdout, &output.stderr].map(|bytes| String::from_utf8_lossy(bytes));
    format!("{out}{err}")
}

/// Runs a command line that must end well; all that it printed.
pub fn must(folder: &Path, line: &str, settings: &[(&str, &str)]) -> String {
    let output = bash(folder, line, settings);
    assert!(output.status.success(), "{line}: {}", printed(&output));
    printed(&output)
}
