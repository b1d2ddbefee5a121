//! What a worker of a batch is asked and answers: up to 16 problems in one call, or one, through one set of buffers;
//! or the cached call with a store.

use crate::batch_calls::{cached_once, cached_twice, call_once, call_twice, lend_single};
use crate::batch_calls::{Called, Fault};
use crate::batch_csv::Told;
use crate::hex::{from_hex, to_hex};
use crate::junk::{junk_batch_buffers, Rng};
use crate::worker::serve;
use frontier::lent::{frame, solve_batch, solve_cached, solve_problem, Answer, BatchBuffers};
use frontier::limits::SLOT_BYTES;

/// The option by which every call is made twice.
pub const TWICE: &str = "--twice";

/// The line that asks a worker about some problems, which go into one call.
pub fn question(problems: &[Vec<u8>]) -> String {
    let problems: Vec<String> = problems.iter().map(|bytes| to_hex(bytes)).collect();
    problems.join(" ")
}

/// The problems of such a line. Without a digit it has one, which is empty.
fn asked_problems(line: &str) -> Option<Vec<Vec<u8>>> {
    line.split(' ').map(from_hex).collect()
}

/// Begins the line that hands a store to a worker.
const STORE: &str = "store ";

/// The line that hands a store to a worker. From then on it makes the cached call.
pub fn store_line(store: &[u8]) -> String {
    format!("{STORE}{}", to_hex(store))
}

/// A worker's answer to a question.
#[derive(Debug, PartialEq, Eq)]
pub struct Reply {
    /// What the call has told of each problem, and what was wrong with it.
    pub called: Called,
    /// What the call has changed in the store: where, and the bytes that stand there now.
    pub changes: Vec<(usize, Vec<u8>)>,
}

impl Reply {
    /// As the lines that a worker prints, each of which begins with what it is about.
    fn text(&self) -> String {
        let told = self.called.told.iter().map(told_line);
        let faults = self.called.faults.iter().map(fault_line);
        let change =
            |(place, bytes): &(usize, Vec<u8>)| format!("{STORE}{place} {}\n", to_hex(bytes));
        let changes = self.changes.iter().map(change);
        told.chain(faults).chain(changes).collect()
    }

    /// From such lines.
    pub fn parse(text: &str) -> Option<Reply> {
        let (mut told, mut faults, mut changes) = (Vec::new(), Vec::new(), Vec::new());
        for line in text.lines() {
            if let Some(numbers) = line.strip_prefix(TOLD) {
                told.push(parse_told(numbers)?);
            } else if let Some(fault) = line.strip_prefix(FAULT) {
                faults.push(parse_fault(fault)?);
            } else {
                let (place, bytes) = line.strip_prefix(STORE)?.split_once(' ')?;
                changes.push((place.parse().ok()?, from_hex(bytes)?));
            }
        }
        let called = Called { told, faults };
        Some(Reply { called, changes })
    }
}

/// Begins the line of what was told of a problem.
const TOLD: &str = "told ";

/// Begins the line of what was wrong.
const FAULT: &str = "fault ";

/// Stands for a value that there is not.
const NONE: &str = "none";

fn told_line(told: &Told) -> String {
    let Told {
        number,
        place,
        count,
        microseconds,
        digest,
        hit,
    } = told;
    let hit = hit.map_or(NONE, |hit| if hit { "1" } else { "0" });
    format!("{TOLD}{number} {place} {count} {microseconds} {digest} {hit}\n")
}

fn parse_told(numbers: &str) -> Option<Told> {
    let mut numbers = numbers.split(' ');
    Some(Told {
        number: numbers.next()?.parse().ok()?,
        place: numbers.next()?.parse().ok()?,
        count: numbers.next()?.parse().ok()?,
        microseconds: numbers.next()?.parse().ok()?,
        digest: numbers.next()?.parse().ok()?,
        hit: match numbers.next()? {
            NONE => None,
            hit => Some(hit == "1"),
        },
    })
}

fn fault_line(fault: &Fault) -> String {
    let problem = fault.problem.map_or(NONE.into(), |k| k.to_string());
    format!("{FAULT}{problem} {}\n", fault.complaint)
}

fn parse_fault(fault: &str) -> Option<Fault> {
    let (problem, complaint) = fault.split_once(' ')?;
    Some(Fault {
        problem: match problem {
            NONE => None,
            k => Some(k.parse().ok()?),
        },
        complaint: complaint.into(),
    })
}

/// A worker's store, and the same as those who asked know it.
#[derive(Default)]
struct Kept {
    store: Vec<u8>,
    known: Vec<u8>,
}

impl Kept {
    fn new(store: Vec<u8>) -> Kept {
        let known = store.clone();
        Kept { store, known }
    }

    /// What they do not know yet: for each slot that has changed, its bytes from the first to the last that differ.
    fn take_changes(&mut self) -> Vec<(usize, Vec<u8>)> {
        let mut changes = Vec::new();
        let slots = self.store.chunks(SLOT_BYTES);
        for (number, (now, known)) in slots.zip(self.known.chunks_mut(SLOT_BYTES)).enumerate() {
            if now == known {
                continue;
            }
            let differs = |&i: &usize| now[i] != known[i];
            let first = (0..now.len()).find(differs).unwrap_or_default();
            let last = (first..now.len()).rfind(differs).unwrap_or_default();
            changes.push((number * SLOT_BYTES + first, now[first..=last].to_vec()));
            known.copy_from_slice(now);
        }
        changes
    }
}

/// What a worker keeps from question to question: one set of buffers, which starts with junk, and the store, if it
/// was handed one.
struct Serving {
    lent: BatchBuffers,
    rng: Rng,
    kept: Option<Kept>,
    twice: bool,
}

/// Answers questions until there are no more. With a store it makes the cached call, and tells with each answer what
/// that has stored, so that nothing is lost with a worker that is ended at a later problem.
pub fn serve_batch(twice: bool) -> Result<(), String> {
    let mut serving = Serving {
        lent: junk_batch_buffers(),
        rng: Rng::new(0),
        kept: None,
        twice,
    };
    serve(|line| {
        if let Some(store) = line.strip_prefix(STORE) {
            let store = from_hex(store).ok_or("a store in hexadecimal digits is due")?;
            serving.kept = Some(Kept::new(store));
            return Ok(String::new());
        }
        let problems = asked_problems(line).ok_or("problems in hexadecimal digits are due")?;
        let problems: Vec<&[u8]> = problems.iter().map(Vec::as_slice).collect();
        Ok(serving.answer(&problems).text())
    })
}

impl Serving {
    fn answer(&mut self, problems: &[&[u8]]) -> Reply {
        let called = match (&mut self.kept, problems) {
            (Some(kept), [problem]) => {
                let (lent, store) = (&mut self.lent, &mut kept.store);
                match self.twice {
                    true => cached_twice(solve_cached, lent, store, &mut self.rng, problem),
                    false => cached_once(solve_cached, lent, store, problem),
                }
            }
            (_, [problem]) => self.call(|lent| lend_single(solve_problem, lent, problem), problems),
            _ => {
                let batch = frame(problems);
                self.call(|lent| lent.lend(solve_batch, &batch), problems)
            }
        };
        let changes = self.kept.as_mut().map(Kept::take_changes);
        Reply {
            called,
            changes: changes.unwrap_or_default(),
        }
    }

    /// Makes a call once or twice.
    fn call(
        &mut self,
        call: impl FnMut(&mut BatchBuffers) -> Answer,
        problems: &[&[u8]],
    ) -> Called {
        match self.twice {
            true => call_twice(call, &mut self.lent, &mut self.rng, problems),
            false => call_once(call, &mut self.lent, problems),
        }
    }
}
