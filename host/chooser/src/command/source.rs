//! A problem from a file or from standard input, in one of its three forms: binary, our text, or WCSP text.

use std::ffi::OsStr;
use std::path::Path;

use super::{read_file, Failure, STANDARD_STREAM};
use crate::text::{parse, Fault, Named, Names};
use crate::wcsp;
use frontier::limits::MAX_BYTES;
use frontier::{from_text, Problem, Refusal};

/// A text problem has at most this many bytes: more than the largest problem takes with the longest
/// names, in letters of four bytes each.
pub const MAX_TEXT: usize = 8_000_000;

/// The first two bytes of a binary problem.
pub const BINARY: &[u8] = b"HD";

/// The end of the name of a file with WCSP text, whatever it holds.
pub const WCSP_END: &str = "wcsp";

/// The forms of a problem.
#[derive(Clone, Copy, Debug, PartialEq, Eq)]
pub enum Form {
    Binary,
    Text,
    Wcsp,
}

/// A problem's record bytes, its form in the file, and its names if it was our text. Binary bytes are not
/// checked.
pub struct Source {
    /// What to call the problem in messages.
    pub label: String,
    pub bytes: Vec<u8>,
    pub form: Form,
    pub names: Option<Names>,
}

impl Source {
    /// Reads a problem; `-` is standard input.
    pub fn load(word: &OsStr) -> Result<Source, Failure> {
        let label = label_of(word);
        let file = read_problem_file(word)?;
        let form = form_of(word, &file);
        let (bytes, names) = match form {
            Form::Binary => (file, None),
            Form::Wcsp => (read_wcsp(&label, &file)?, None),
            Form::Text => {
                let named = parse_file(&label, &file)?;
                (named.problem.encode(), Some(named.names))
            }
        };
        Ok(Source {
            label,
            bytes,
            form,
            names,
        })
    }

    /// What to call the parts of the problem in these bytes.
    pub fn names(&self, problem: &Problem) -> Names {
        let given = self.names.clone();
        given.unwrap_or_else(|| Names::numbers(problem))
    }
}

/// What to call a file in messages.
pub fn label_of(word: &OsStr) -> String {
    match word == STANDARD_STREAM {
        true => "standard input".into(),
        false => Path::new(word).display().to_string(),
    }
}

/// Whether a file that begins so is a binary problem, perhaps one that is cut off.
fn is_binary(bytes: &[u8]) -> bool {
    bytes.starts_with(BINARY) || BINARY.starts_with(bytes)
}

/// Whether the name of a file says that it holds WCSP text.
fn is_named_wcsp(word: &OsStr) -> bool {
    Path::new(word)
        .extension()
        .is_some_and(|end| end == WCSP_END)
}

/// What a file holds: WCSP text if its name says so; else a binary problem if it starts with the mark of one;
/// else WCSP text if its first words are such, which those of our text never are.
pub fn form_of(word: &OsStr, bytes: &[u8]) -> Form {
    match bytes {
        _ if is_named_wcsp(word) => Form::Wcsp,
        _ if is_binary(bytes) => Form::Binary,
        _ if wcsp::is_wcsp(bytes) => Form::Wcsp,
        _ => Form::Text,
    }
}

/// Reads a file that holds a problem in any form; a longer one than any may be is cut behind its limit.
pub fn read_problem_file(word: &OsStr) -> Result<Vec<u8>, Failure> {
    match is_named_wcsp(word) {
        true => read_file(word, |_| MAX_TEXT),
        false => read_file(word, |first| match is_binary(first) {
            true => MAX_BYTES,
            false => MAX_TEXT,
        }),
    }
}

/// The problem in a text file.
pub fn parse_file(label: &str, bytes: &[u8]) -> Result<Named, Failure> {
    check_length(label, bytes)?;
    parse(bytes).map_err(|fault| Failure::file(fault_text(label, bytes, &fault)))
}

/// Asks that a text is not longer than any that the command reads.
fn check_length(label: &str, bytes: &[u8]) -> Result<(), Failure> {
    match bytes.len() <= MAX_TEXT {
        true => Ok(()),
        false => Err(Failure::file(format!(
            "{label} has more than {MAX_TEXT} bytes, too many for a text problem, and does not \
             start with HD as a binary one; name another file"
        ))),
    }
}

/// The records of a file with WCSP text, as the library reads it. What it refuses is told at its word.
pub fn read_wcsp(label: &str, bytes: &[u8]) -> Result<Vec<u8>, Failure> {
    check_length(label, bytes)?;
    from_text(bytes).map_err(|refusal| Failure::file(refused_text(label, bytes, refusal)))
}

/// A refusal of WCSP text with its place. Without a finding for that number it is told by itself.
fn refused_text(label: &str, bytes: &[u8], refusal: Refusal) -> String {
    let found = wcsp::find(bytes).filter(|finding| finding.refusal == refusal);
    let Some(finding) = found else {
        return format!("{label}: {refusal}; please report this, with the file");
    };
    let mut fault = finding.fault(bytes);
    let (number, word) = (refusal.number(), refusal.word());
    fault.message += &format!(" (refused with number {number}, {word})");
    fault_text(label, bytes, &fault)
}

/// A fault with its file, line and column, and below it the line with a mark at the column.
fn fault_text(label: &str, bytes: &[u8], fault: &Fault) -> String {
    /// Longer lines are not shown.
    const SHOWN: usize = 100;
    let mut text = format!("{label}:{}:{}: {}", fault.line, fault.column, fault.message);
    let lossy = String::from_utf8_lossy(bytes);
    let line = lossy.lines().nth(fault.line - 1).unwrap_or_default();
    if !line.trim().is_empty() && line.chars().count() <= SHOWN {
        let plain: String = line
            .chars()
            .map(|c| if c.is_control() { ' ' } else { c })
            .collect();
        let mark = " ".repeat(fault.column - 1);
        text.push_str(&format!("\n    {plain}\n    {mark}^"));
    }
    text
}
