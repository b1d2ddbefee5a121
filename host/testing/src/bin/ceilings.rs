//! Prints the digests of what the library answers to the problems of `testing::ceilings`, a line for each thousand.
//! With `--raised` it asks under ceilings one larger; so built with version 2.2.0 it has made
//! `host/data/ceilings.digests`.

use std::env;
use std::process::ExitCode;

use frontier::lent::{solve_cut, solve_problem};
use testing::ceilings::{digest, DIGESTS};

const USAGE: &str = "usage: ceilings [--raised]
Prints a digest for each thousand of the problems; with --raised each ceiling is one larger.";

fn main() -> ExitCode {
    let arguments: Vec<String> = env::args().skip(1).collect();
    let raised = match arguments.iter().map(String::as_str).collect::<Vec<_>>()[..] {
        [] => false,
        ["--raised"] => true,
        _ => {
            eprintln!(
                "ceilings: '{}' is not understood\n{USAGE}",
                arguments.join(" ")
            );
            return ExitCode::from(2);
        }
    };
    for thousand in 0..DIGESTS {
        let digest = digest(thousand, raised, solve_problem, solve_cut);
        println!("{thousand:02} {digest:016x}");
    }
    ExitCode::SUCCESS
}
