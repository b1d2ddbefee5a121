//! The command `chooser`: its subcommands, which of them the words ask for, and how a run ends.

use std::ffi::{OsStr, OsString};
use std::process::ExitCode;

mod advice;
mod answers;
mod batch;
mod batch_cache;
mod batch_files;
mod batch_run;
mod batch_summary;
mod bound;
mod cut;
mod files;
mod help;
mod key;
mod pack;
mod plot;
mod refused;
mod solve;
mod source;
mod unpack;
mod waiting;
mod wcsp;
mod words;

pub use files::STANDARD_STREAM;
pub use files::{check_target, print_error, print_out, read_file, write_file, write_or_print};
pub use source::Source;
pub use words::{sort_words, Asked, Known};

use crate::nearest::or_nearest;

/// How a run ended that was not misused: exit status 0 or 1.
#[derive(Clone, Copy, Debug, PartialEq, Eq)]
pub enum Outcome {
    Answered,
    Refused,
}

/// Why a run could not be done: exit status 2, or 1 where a file is at fault. The message says what
/// is wrong, where, and what to do.
#[derive(Clone, Debug, PartialEq, Eq)]
pub struct Failure {
    pub status: u8,
    pub message: String,
}

impl Failure {
    /// The words are wrong, or name something that cannot be read or written.
    pub fn misuse(message: impl Into<String>) -> Failure {
        let message = message.into();
        Failure { status: 2, message }
    }

    /// A file was read, and what stands in it is wrong.
    pub fn file(message: impl Into<String>) -> Failure {
        let message = message.into();
        Failure { status: 1, message }
    }
}

/// A subcommand: its name, what it does in a few words, its help, and what runs it.
struct Subcommand {
    name: &'static str,
    summary: &'static str,
    help: &'static str,
    run: fn(&[OsString]) -> Result<Outcome, Failure>,
}

/// All subcommands, in the order in which the help tells them.
const SUBCOMMANDS: &[Subcommand] = &[
    Subcommand {
        name: "solve",
        summary: "list the frontier of a problem",
        help: solve::HELP,
        run: solve::run,
    },
    Subcommand {
        name: "cut",
        summary: "list the frontier by way of two halves",
        help: cut::HELP,
        run: cut::run,
    },
    Subcommand {
        name: "bound",
        summary: "tell what a partial choice costs at least",
        help: bound::HELP,
        run: bound::run,
    },
    Subcommand {
        name: "pack",
        summary: "make a binary problem of a text problem",
        help: pack::HELP,
        run: pack::run,
    },
    Subcommand {
        name: "unpack",
        summary: "make a text problem of a binary problem",
        help: unpack::HELP,
        run: unpack::run,
    },
    Subcommand {
        name: "wcsp",
        summary: "change a problem with one cost to text for other solvers, or back",
        help: wcsp::HELP,
        run: wcsp::run,
    },
    Subcommand {
        name: "key",
        summary: "tell equal problems by the key of their canonical form",
        help: key::HELP,
        run: key::run,
    },
    Subcommand {
        name: "plot",
        summary: "draw the frontier of a problem as a picture",
        help: plot::HELP,
        run: plot::run,
    },
    Subcommand {
        name: "batch",
        summary: "run every problem of a folder, and compare with an earlier run",
        help: batch::HELP,
        run: batch::run,
    },
    Subcommand {
        name: "help",
        summary: "tell what the command or a subcommand does",
        help: help::HELP,
        run: help::run,
    },
];

/// Old names of subcommands, which still work, and the names of today.
const OLD_NAMES: &[(&str, &str)] = &[("night", "batch")];

/// Runs the command on the words after its name.
pub fn run(words: &[OsString]) -> ExitCode {
    match dispatch(words) {
        Ok(Outcome::Answered) => ExitCode::SUCCESS,
        Ok(Outcome::Refused) => ExitCode::from(1),
        Err(failure) => {
            print_error(&format!("chooser: {}\n", failure.message));
            ExitCode::from(failure.status)
        }
    }
}

/// Hands the words to the subcommand that the first of them names.
fn dispatch(words: &[OsString]) -> Result<Outcome, Failure> {
    let Some((first, rest)) = words.split_first() else {
        return Err(Failure::misuse(format!(
            "a subcommand is due\n{}",
            help::overview()
        )));
    };
    if is_help(first) {
        return help::run(rest);
    }
    if first == "--version" || first == "-V" {
        print_out(&format!("chooser {}\n", env!("CARGO_PKG_VERSION")))?;
        return Ok(Outcome::Answered);
    }
    let subcommand = find_subcommand(first)?;
    if rest
        .iter()
        .take_while(|word| *word != "--")
        .any(|word| is_help(word))
    {
        print_out(subcommand.help)?;
        return Ok(Outcome::Answered);
    }
    (subcommand.run)(rest)
}

/// Whether a word asks for help.
fn is_help(word: &OsStr) -> bool {
    word == "--help" || word == "-h"
}

/// The subcommand with this name, or what is wrong with it. Of an old name the new one is told.
fn find_subcommand(word: &OsStr) -> Result<&'static Subcommand, Failure> {
    let renamed = OLD_NAMES.iter().find(|(old, _)| word == *old);
    if let Some((old, name)) = renamed {
        print_error(&format!(
            "chooser: the subcommand '{old}' is called '{name}' now; '{old}' still works\n"
        ));
    }
    let word = renamed.map_or(word, |(_, name)| OsStr::new(name));
    let found = SUBCOMMANDS.iter().find(|known| word == known.name);
    found.ok_or_else(|| {
        let asked = word.to_string_lossy();
        let names = SUBCOMMANDS.iter().map(|known| known.name);
        let nearest = or_nearest(&asked, names, "'chooser help' tells all subcommands");
        Failure::misuse(format!("there is no subcommand '{asked}'; {nearest}"))
    })
}
