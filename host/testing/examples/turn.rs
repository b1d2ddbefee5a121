//! Writes the problems of a folder to another one, with every scope falling and its table turned to
//! fit. They have the same answers, so that `chooser batch` can compare both folders and their times;
//! see `docs/changes/01-scopes.md`.

use std::env;
use std::fs;
use std::path::Path;
use std::process::ExitCode;

use chooser::folder::list_problems;
use testing::night::read_bytes;
use testing::reading::read_problem;
use testing::turned::falling;

const USAGE: &str = "usage: turn FROM TO
Writes each problem of the folder FROM to the folder TO, which is made, with falling scopes.";

/// Writes the problems; how many they are.
fn turn(from: &Path, to: &Path) -> Result<usize, String> {
    let problems = list_problems(from)?;
    let failed = |error| format!("{} cannot be written: {error}", to.display());
    fs::create_dir(to).map_err(failed)?;
    for problem in &problems {
        let bytes = read_bytes(&problem.path)?;
        let read =
            read_problem(&bytes).map_err(|refusal| format!("{}: {refusal:?}", problem.name))?;
        let turned = falling(&read.problem).encode();
        fs::write(to.join(format!("{}.bin", problem.name)), turned).map_err(failed)?;
    }
    Ok(problems.len())
}

fn main() -> ExitCode {
    let arguments: Vec<String> = env::args().skip(1).collect();
    let [from, to] = &arguments[..] else {
        eprintln!("{USAGE}");
        return ExitCode::from(2);
    };
    match turn(Path::new(from), Path::new(to)) {
        Ok(count) => println!("{count} problems written to {to}"),
        Err(complaint) => {
            eprintln!("turn: {complaint}");
            return ExitCode::FAILURE;
        }
    }
    ExitCode::SUCCESS
}
