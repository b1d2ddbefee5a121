//! `chooser pack`: a text problem as record bytes.

use std::ffi::{OsStr, OsString};
use std::io::{self, IsTerminal};

use super::source::{form_of, label_of, parse_file, read_problem_file, read_wcsp, Form, BINARY};
use super::{sort_words, write_or_print, Failure, Outcome};

pub const HELP: &str = "\
usage: chooser pack TEXT [-o FILE]

Writes the text problem in TEXT ('-': standard input) as a binary problem, to
standard output or to FILE. WCSP text is taken too ('chooser help wcsp' says how
it is known). A fault in the text is told with its line and column; then
nothing is written, and with -o an old FILE stays as it is.
What the records cannot say, and what a problem may not have (as 25 modules),
is such a fault. Names, comments and layout are not kept in the records.
docs/FORMAT.md describes the text, docs/REFERENCE.md the bytes.

The exit status is 0, 1 where the text is at fault, and 2 where the words are
wrong or a file cannot be read or written.

Example:
    chooser pack examples/firmware.txt > firmware.bin
";

pub fn run(words: &[OsString]) -> Result<Outcome, Failure> {
    let asked = sort_words(words, &[("-o", "FILE")])?;
    let [file] = asked.operands(["TEXT"])?;
    let output = asked.value("-o");
    if output.is_none() && io::stdout().is_terminal() {
        let complaint = "a binary problem is not for the terminal; add '> FILE' or '-o FILE'";
        return Err(Failure::misuse(complaint));
    }
    write_or_print(output, &packed(file)?)
}

/// The record bytes of a text file.
fn packed(file: &OsStr) -> Result<Vec<u8>, Failure> {
    let label = label_of(file);
    let bytes = read_problem_file(file)?;
    if form_of(file, &bytes) == Form::Wcsp {
        return read_wcsp(&label, &bytes);
    }
    if bytes.starts_with(BINARY) {
        return Err(Failure::file(format!(
            "{label} starts with HD, so it is a binary problem already; 'chooser unpack' makes text \
             of it"
        )));
    }
    Ok(parse_file(&label, &bytes)?.problem.encode())
}
