//! `chooser unpack`: a binary problem as text.

use std::ffi::OsString;

use super::refused::{Call, Question};
use super::source::{label_of, Form, Source};
use super::{read_file, sort_words, write_or_print, Failure, Outcome};
use crate::text::{write, Named, Names};
use frontier::limits::MAX_BYTES;
use frontier::Problem;

pub const HELP: &str = "\
usage: chooser unpack FILE [-o TEXT]

Writes the binary problem in FILE ('-': standard input) as a text problem, to
standard output or to TEXT. Records have no names, so the costs are called
cost0, cost1 and so on, the modules module0, module1, and the variants of each
module v0, v1. 'chooser pack' makes the same bytes of it again. A refused
problem is told as 'chooser solve' tells it, and nothing is written.
docs/FORMAT.md describes the text, docs/REFERENCE.md the bytes.

The exit status is 0, 1 for a refusal, and 2 where the words are wrong or a
file cannot be read or written.

Example:
    chooser unpack examples/firmware.bin
";

pub fn run(words: &[OsString]) -> Result<Outcome, Failure> {
    let asked = sort_words(words, &[("-o", "TEXT")])?;
    let [file] = asked.operands(["FILE"])?;
    let source = Source {
        label: label_of(file),
        bytes: read_file(file, |_| MAX_BYTES)?,
        form: Form::Binary,
        names: None,
    };
    let problem = match Problem::decode(&source.bytes) {
        Ok(problem) => problem,
        Err(refusal) => {
            let question = Question {
                source: &source,
                call: Call::Read,
            };
            return question.refuse(refusal, false);
        }
    };
    write_or_print(asked.value("-o"), unpacked(problem).as_bytes())
}

/// The text of a problem that came without names.
pub fn unpacked(problem: Problem) -> String {
    let names = Names::invented(&problem);
    write(&Named { problem, names })
}
