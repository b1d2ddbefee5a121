//! toulbar2, a solver of weighted constraint problems, on problems with one objective: it finds the
//! least cost. It is measured where it is installed.

use std::fs;
use std::path::Path;
use std::process::{self, Command, Stdio};
use std::time::{Duration, Instant};

use super::sides::{Ending, Run};
use frontier::to_text;

const PROGRAM: &str = "toulbar2";

/// Stands for the least cost where no choice is consistent.
pub const NO_CHOICE: &str = "none";

pub fn is_installed() -> bool {
    let started = Command::new(PROGRAM)
        .arg("--version")
        .stdout(Stdio::null())
        .stderr(Stdio::null())
        .status();
    started.is_ok()
}

/// The least cost in what toulbar2 prints, if it came to an end.
pub fn least_cost_printed(output: &str) -> Option<String> {
    let found = |line: &str| {
        line.strip_prefix("Optimum: ")?
            .split(' ')
            .next()
            .map(String::from)
    };
    let none = |line: &str| {
        line.starts_with("No solution")
            .then(|| NO_CHOICE.to_string())
    };
    output
        .lines()
        .find_map(|line| found(line).or_else(|| none(line)))
}

/// The time that toulbar2 says its preprocessing took: a part of its own solving time, and the one
/// that it prints finely enough.
pub fn own_time_printed(output: &str) -> Option<Duration> {
    let seconds = |line: &str| {
        let rest = line.strip_prefix("Preprocessing time: ")?;
        rest.split(' ').next()?.parse().ok()
    };
    let seconds = output.lines().find_map(seconds)?;
    Duration::try_from_secs_f64(seconds).ok()
}

/// The least cost in the text of the list program, for a problem with one objective.
pub fn least_cost_listed(text: &str) -> Option<String> {
    if text.starts_with("points 0 ") {
        return Some(NO_CHOICE.to_string());
    }
    let first = text.strip_prefix("points 1 ")?.lines().nth(1)?;
    first.split(' ').next().map(String::from)
}

/// The choice that toulbar2 has printed last, behind the line that says that it has found one.
pub fn choice_printed(output: &str) -> Option<Vec<u8>> {
    let found = output.lines().rev().collect::<Vec<_>>();
    let line = found
        .windows(2)
        .find(|pair| pair[1].starts_with("New solution: "))?[0];
    line.split_whitespace()
        .map(|word| word.parse().ok())
        .collect()
}

/// What toulbar2 prints of a text that is written to this file for as long as it runs.
pub fn printed(text: &str, file: &Path, options: &[&str]) -> Result<(String, Duration), String> {
    let unwritable = |error| format!("{} cannot be written: {error}", file.display());
    fs::write(file, text).map_err(unwritable)?;
    let start = Instant::now();
    let output = Command::new(PROGRAM).arg(file).args(options).output();
    let time = start.elapsed();
    // The file is in a folder for such files; nothing is wrong if it stays.
    let _ = fs::remove_file(file);
    let output = output.map_err(|error| format!("{PROGRAM} cannot be started: {error}"))?;
    Ok((String::from_utf8_lossy(&output.stdout).into_owned(), time))
}

/// Runs toulbar2 on a problem with one objective. The answer is the least cost, and the time is
/// what passes from its start to its end; beside it what toulbar2 says of its own time.
pub fn run(problem: &[u8], limit: Duration) -> Result<(Run, Option<Duration>), String> {
    let file = std::env::temp_dir().join(format!("speed-{}.wcsp", process::id()));
    let text = to_text(problem).map_err(|refusal| refusal.to_string())?;
    let timer = format!("-timer={}", limit.as_secs_f64().ceil());
    let (printed, time) = printed(&text, &file, &[&timer])?;
    let ending = match least_cost_printed(&printed) {
        Some(_) if time > limit => Ending::GivenUp,
        Some(cost) => Ending::Answered(cost),
        None if time >= limit => Ending::GivenUp,
        None => Ending::Died,
    };
    let run = Run {
        ending,
        time: time.min(limit),
        nodes: None,
        measures: None,
    };
    Ok((run, own_time_printed(&printed)))
}
