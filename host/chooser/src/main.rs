//! The command `chooser`: all of it is in `chooser::command`.

use std::env;
use std::process::ExitCode;

use chooser::command;

fn main() -> ExitCode {
    let words: Vec<_> = env::args_os().skip(1).collect();
    command::run(&words)
}
