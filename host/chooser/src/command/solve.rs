//! `chooser solve`: the frontier of a problem.

use std::ffi::OsString;

use super::answers::{points_reply, Reply};
use super::refused::{Call, Question};
use super::source::Source;
use super::waiting::while_waiting;
use super::{sort_words, Asked, Failure, Outcome};
use frontier::limits::MAX_POINTS;
use frontier::measure::{Form, Measures};
use frontier::{Chooser, Frontier, Problem, Refusal};

pub const HELP: &str = "\
usage: chooser solve FILE [--room N] [--json] [--stats]

Lists the frontier of the problem in FILE ('-': standard input): every cost
vector that no other one beats, in rising order, each with the earliest choice
of variants that has it. FILE is binary, text or WCSP text. Costs stand before
the bar, the variants behind it; a text problem has names for them.

    --room N    refuse a frontier of more than N points (0 to 64; default 64)
    --json      print one JSON object; docs/FORMAT.md describes it
    --stats     also tell on standard error what the search took

A refusal is told with its number, its place and what to mend.
The exit status is 0 for an answer, 1 for a refusal or a fault in FILE, and 2
where the words are wrong or FILE cannot be read.

Example:
    chooser solve examples/firmware.txt
";

pub fn run(words: &[OsString]) -> Result<Outcome, Failure> {
    let asked = sort_words(words, &[("--room", "N"), ("--json", ""), ("--stats", "")])?;
    let [file] = asked.operands(["FILE"])?;
    let room = asked_room(&asked)?;
    let json = asked.has("--json");
    let source = Source::load(file)?;
    let mut chooser = Chooser::with_room(room);
    let (answer, measures) = while_waiting(|| chooser.solve_measured(&source.bytes));
    if asked.has("--stats") {
        eprintln!("{}", stats_line(&measures));
    }
    let call = Call::Solve { room };
    match answer.and_then(|frontier| frontier_reply(&source, frontier)) {
        Ok(reply) => reply.print(json),
        Err(refusal) => {
            let source = &source;
            Question { source, call }.refuse(refusal, json)
        }
    }
}

/// What the search took, in a line.
fn stats_line(measures: &Measures) -> String {
    let Measures {
        plans,
        failed,
        passes,
        opened,
        ..
    } = measures;
    let form = match measures.form {
        None => return "search: none, the problem was refused before it".to_string(),
        Some(Form::First) => "first",
        Some(Form::Second) => "second",
    };
    format!(
        "search: answered by the {form} form; plans made: {plans}, failed their test: {failed}; \
         passes: {passes}; partial choices opened: {opened}"
    )
}

/// The room that the words ask for.
pub fn asked_room(asked: &Asked) -> Result<usize, Failure> {
    let room = asked.number("--room", 0..=MAX_POINTS)?;
    Ok(room.unwrap_or(MAX_POINTS))
}

/// The answer that a frontier is.
pub fn frontier_reply(source: &Source, frontier: Frontier) -> Result<Reply, Refusal> {
    let problem = Problem::decode(&source.bytes)?;
    Ok(points_reply(&problem, &source.names(&problem), frontier))
}
