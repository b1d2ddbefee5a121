//! `chooser key`: the key of a problem's canonical form, by which equal problems are found, and the form itself.

use std::ffi::{OsStr, OsString};
use std::io::{self, IsTerminal};
use std::path::Path;

use super::refused::{Call, Question};
use super::source::Source;
use super::{check_target, print_out, sort_words, write_file, Failure, Outcome, STANDARD_STREAM};
use crate::json::Json;
use frontier::canonical;

pub const HELP: &str = "\
usage: chooser key FILE... [-o FORM] [--json]

Prints for each FILE ('-': standard input; binary, text or WCSP text) the key of
its problem, 16 hexadecimal digits, and the file's name. Problems that differ
only in the order of their tables, in the order of a table's modules, in names
and in layout have the same key. Other problems have another key, but for rare
accidents; 'cmp' on two files of -o is sure.

    -o FORM     also write the canonical form of the one FILE, a binary problem,
                to FORM ('-': to standard output, and no key)
    --json      print one JSON object; docs/FORMAT.md describes it

A refused problem is told as 'chooser solve' tells it, and the others have their
lines. A fault in a text, or a file that cannot be read, ends the run before a
key is printed. The exit status is 0, 1 for a refusal or a fault in a FILE, and
2 where the words are wrong or a file cannot be read or written.

Example:
    chooser key examples/firmware.txt examples/firmware.bin
";

/// The option with the file for the form.
const OUT: &str = "-o";

/// What is told of a file: its name as it was given, and its key, or its refusal as JSON has it.
type Told = (String, Result<u64, Json>);

pub fn run(words: &[OsString]) -> Result<Outcome, Failure> {
    let asked = sort_words(words, &[(OUT, "FORM"), ("--json", "")])?;
    let files = asked.some_operands("FILE")?;
    let (output, json) = (asked.value(OUT), asked.has("--json"));
    check_files(files)?;
    if let Some(output) = output {
        check_output(output, files, json)?;
    }
    let told: Result<Vec<Told>, Failure> =
        files.iter().map(|file| tell(file, output, json)).collect();
    let told = told?;
    if output.is_none_or(|output| output != STANDARD_STREAM) {
        print_out(&report(&told, json))?;
    }
    match told.iter().all(|(_, key)| key.is_ok()) {
        true => Ok(Outcome::Answered),
        false => Ok(Outcome::Refused),
    }
}

/// Asks that standard input is read once at most.
fn check_files(files: &[OsString]) -> Result<(), Failure> {
    let streams = files.iter().filter(|file| *file == STANDARD_STREAM);
    match streams.count() {
        0 | 1 => Ok(()),
        _ => Err(Failure::misuse(
            "'-' stands twice, and standard input can be read once; leave one out",
        )),
    }
}

/// Asks that the form is of one file, and can go to where it is meant for, alone.
fn check_output(output: &OsStr, files: &[OsString], json: bool) -> Result<(), Failure> {
    let complaint = match files {
        [_, second, ..] => format!(
            "{OUT} takes the form of one FILE, and '{}' is a second; leave one out",
            second.to_string_lossy()
        ),
        _ if output != STANDARD_STREAM => return check_target(output),
        _ if json => format!("'{OUT} -' and --json both take standard output; leave one out"),
        _ if io::stdout().is_terminal() => {
            format!("a binary problem is not for the terminal; add '> FILE' or '{OUT} FILE'")
        }
        _ => return Ok(()),
    };
    Err(Failure::misuse(complaint))
}

/// Finds the key of a file, and writes its form where one is asked for. A refusal is told at once, but with
/// JSON in the answer.
fn tell(file: &OsStr, output: Option<&OsStr>, json: bool) -> Result<Told, Failure> {
    let source = Source::load(file)?;
    let key = match canonical(&source.bytes) {
        Ok(found) => {
            if let Some(output) = output {
                write_file(output, &found.form)?;
            }
            Ok(found.key)
        }
        Err(refusal) => {
            let (source, call) = (&source, Call::Read);
            let question = Question { source, call };
            if !json {
                question.refuse(refusal, false)?;
            }
            Err(question.refusal_json(refusal))
        }
    };
    Ok((Path::new(file).display().to_string(), key))
}

/// The answer: a line for each key, or one JSON object.
fn report(told: &[Told], json: bool) -> String {
    if json {
        let problems = told.iter().map(|(name, key)| {
            let found = match key {
                Ok(key) => ("key", Json::text(digits(*key))),
                Err(refused) => ("refused", refused.clone()),
            };
            Json::Object(vec![("file", Json::text(name)), found])
        });
        let problems = Json::List(problems.collect());
        return format!("{}\n", Json::Object(vec![("problems", problems)]));
    }
    let line = |(name, key): &Told| {
        let key = key.as_ref().ok()?;
        Some(format!("{}  {name}\n", digits(*key)))
    };
    told.iter().filter_map(line).collect()
}

/// A key as it is told: 16 hexadecimal digits.
fn digits(key: u64) -> String {
    format!("{key:016x}")
}
