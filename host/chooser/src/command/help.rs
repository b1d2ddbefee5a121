//! `chooser help`: what the command does, or one of its subcommands.

use std::ffi::OsString;

use super::{find_subcommand, print_out, Failure, Outcome, SUBCOMMANDS};

pub const HELP: &str = "\
usage: chooser help [SUBCOMMAND]

Tells what the command does, or one of its subcommands. The same text comes
with 'chooser SUBCOMMAND --help'.

Example:
    chooser help solve
";

/// What the command is for, and a line for each subcommand.
pub fn overview() -> String {
    let mut text = String::from(
        "usage: chooser SUBCOMMAND ...\n\n\
         Chooses code variants: lists the cost vectors that nothing beats.\n\n",
    );
    for known in SUBCOMMANDS {
        text.push_str(&format!("    {:8} {}\n", known.name, known.summary));
    }
    text.push_str(
        "\n'chooser help SUBCOMMAND' tells more. 'chooser --version' prints the version.\n\
         The exit status is 0 for an answer, 1 where a problem is refused or a file is\n\
         at fault, and 2 where the words are wrong or a file cannot be read or written.\n\n\
         Example:\n    chooser solve examples/firmware.txt\n",
    );
    text
}

pub fn run(words: &[OsString]) -> Result<Outcome, Failure> {
    match words {
        [] => print_out(&overview())?,
        [word] => print_out(find_subcommand(word)?.help)?,
        [_, second, ..] => {
            let second = second.to_string_lossy();
            return Err(Failure::misuse(format!(
                "help takes one subcommand, and '{second}' is one word more; leave it out"
            )));
        }
    }
    Ok(Outcome::Answered)
}
