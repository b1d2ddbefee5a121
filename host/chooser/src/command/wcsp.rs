//! `chooser wcsp`: a problem as WCSP text, for other solvers, and such a text as a problem.

use std::ffi::{OsStr, OsString};
use std::path::Path;

use super::refused::{Call, Question};
use super::source::{Form, Source};
use super::unpack::unpacked;
use super::{sort_words, write_or_print, Failure, Outcome};
use crate::folder::EXTENSION;
use frontier::{to_text, Problem};

pub const HELP: &str = "\
usage: chooser wcsp FILE [-o OUT]

Writes the problem in FILE ('-': standard input) as WCSP text, the format of
toulbar2 and other solvers of weighted constraint problems, to standard output
or to OUT. The problem must have one cost. The upper bound, which a cost stays
below, is one above its ceiling; 4294967295 is too high a ceiling for that.
Modules and variants have their numbers (from 0), and every allowed choice costs
the same. If FILE is WCSP text, it becomes a problem: a binary one if OUT ends
in .bin, else a text problem with the names that 'chooser unpack' gives.

FILE is WCSP text if its name ends in .wcsp; or if it does not start with HD,
its first word starts no text problem (costs, module, table, or a comment), and
numbers follow it. All subcommands but unpack and batch take it so.

A refused problem is told as 'chooser solve' tells it, a refused WCSP text with
line and column; then nothing is written, and with -o an old OUT stays as it is.
The exit status is 0, 1 for a refusal or a fault in FILE, and 2 where the words
are wrong or a file cannot be read or written. docs/FORMAT.md says more.

Example:
    chooser wcsp examples/boot.txt
";

pub fn run(words: &[OsString]) -> Result<Outcome, Failure> {
    let asked = sort_words(words, &[("-o", "OUT")])?;
    let [file] = asked.operands(["FILE"])?;
    let source = Source::load(file)?;
    let output = asked.value("-o");
    let written = match source.form {
        Form::Wcsp => Problem::decode(&source.bytes).map(|problem| problem_for(output, problem)),
        _ => to_text(&source.bytes).map(String::into_bytes),
    };
    match written {
        Ok(bytes) => write_or_print(output, &bytes),
        Err(refusal) => {
            let (source, call) = (&source, Call::Wcsp);
            Question { source, call }.refuse(refusal, false)
        }
    }
}

/// The problem in the form that the output is for.
fn problem_for(output: Option<&OsStr>, problem: Problem) -> Vec<u8> {
    let end = output.and_then(|output| Path::new(output).extension());
    match end.is_some_and(|end| end == EXTENSION) {
        true => problem.encode(),
        false => unpacked(problem).into_bytes(),
    }
}
