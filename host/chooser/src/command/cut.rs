//! `chooser cut`: the frontier of a problem by way of two halves.

use std::ffi::{OsStr, OsString};

use super::answers::Reply;
use super::refused::{Call, Question};
use super::solve::{asked_room, frontier_reply};
use super::source::Source;
use super::waiting::while_waiting;
use super::{sort_words, Failure, Outcome};
use crate::json::Json;
use frontier::{Chooser, Cut, Refusal};

pub const HELP: &str = "\
usage: chooser cut FILE SIDES [--room N] [--json]

Lists the frontier of the problem in FILE ('-': standard input), as 'chooser
solve' does, by way of two halves that no cost record links, and says how many
points the frontier of each half has. SIDES has a 0 or 1 for each module, in
the order of the modules: the half that it belongs to.

    --room N    refuse a frontier of more than N points (0 to 64; default 64)
    --json      print one JSON object; docs/FORMAT.md describes it

Sides that a cost record crosses are refused, and so is a half with more than
64 points. The exit status is 0 for an answer, 1 for a refusal or a fault in
FILE, and 2 where the words are wrong or FILE cannot be read.

Example:
    chooser cut examples/firmware.txt 0011
";

pub fn run(words: &[OsString]) -> Result<Outcome, Failure> {
    let asked = sort_words(words, &[("--room", "N"), ("--json", "")])?;
    let [file, sides] = asked.operands(["FILE", "SIDES"])?;
    let room = asked_room(&asked)?;
    let sides = read_sides(sides)?;
    let json = asked.has("--json");
    let source = Source::load(file)?;
    let mut chooser = Chooser::with_room(room);
    let cut = while_waiting(|| chooser.cut(&source.bytes, &sides));
    match cut.and_then(|cut| cut_reply(&source, cut)) {
        Ok(reply) => reply.print(json),
        Err(refusal) => {
            let (source, sides) = (&source, &sides[..]);
            let call = Call::Cut { sides, room };
            Question { source, call }.refuse(refusal, json)
        }
    }
}

/// The answer that a frontier with its half sizes is.
fn cut_reply(source: &Source, cut: Cut) -> Result<Reply, Refusal> {
    let mut reply = frontier_reply(source, cut.frontier)?;
    let [first, second] = cut.halves;
    let told = format!("\nhalf sizes: {first} and {second}\n");
    reply.text.push_str(&told);
    let sizes = cut.halves.map(|size| Json::Number(size as u64));
    reply.json.push(("halves", Json::List(sizes.to_vec())));
    Ok(reply)
}

/// A side for each digit. Digits above 1 are for the call to refuse.
fn read_sides(word: &OsStr) -> Result<Vec<u8>, Failure> {
    let text = word.to_string_lossy();
    let digit = |letter: char| letter.to_digit(10).map(|digit| digit as u8);
    let sides: Option<Vec<u8>> = text.chars().map(digit).collect();
    sides.ok_or_else(|| {
        Failure::misuse(format!(
            "SIDES is a 0 or 1 for each module, as 0110, and '{text}' is not"
        ))
    })
}
