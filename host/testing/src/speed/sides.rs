//! The sides: the chooser over its C interface, in a worker because its call cannot be interrupted,
//! and what it is measured against: plain Rust, or the chooser with another library. All get junk in
//! their buffers before each call; the call alone is timed. A call that takes less than a millisecond
//! is made again, and the least time counts: the first one also pays for caches that hold what the
//! other side has just done.

use std::path::{Path, PathBuf};
use std::time::Duration;

use crate::owned::answer_text;
use crate::plain::{solve_within, Settings};
use chooser::clock::thread_time;
use chooser::hex::{from_hex, to_hex};
use chooser::junk::{fill_with_junk, junk_buffers};
use chooser::worker::{self, serve, Worker};
use frontier::lent::{Answer, Buffers};
use frontier::measure::{self, Measures};

/// What one side made of a problem.
pub struct Run {
    pub ending: Ending,
    /// Processor time, up to the end or until the problem was given up.
    pub time: Duration,
    /// How many values were tried, where that is known.
    pub nodes: Option<u64>,
    /// What the chooser's search took, where it answered by the plain call.
    pub measures: Option<Measures>,
}

impl Run {
    pub fn is_answered(&self) -> bool {
        matches!(self.ending, Ending::Answered(_))
    }

    /// The one of two runs that took less time, or the second if its process died.
    pub fn quicker(self, other: Run) -> Run {
        match other.ending == Ending::Died || other.time < self.time {
            true => other,
            false => self,
        }
    }
}

#[derive(Debug, PartialEq, Eq)]
pub enum Ending {
    /// The text that the list program prints.
    Answered(String),
    GivenUp,
    /// The process ended without an answer.
    Died,
}

/// Which form of the search the chooser uses.
#[derive(Clone, Copy, PartialEq, Eq)]
pub enum Form {
    First,
    Second,
}

/// The word before a problem that asks for the first form.
const BY_PASSES: &str = "passes ";

/// Calls that take less than this are made so many times in all.
const QUICK: (Duration, usize) = (Duration::from_millis(1), 20);

/// What a call gives, with junk in the buffers before it, and the least time that it took.
fn timed<T>(lent: &mut Buffers, mut call: impl FnMut(&mut Buffers) -> T) -> (T, Duration) {
    let mut once = || {
        fill_with_junk(lent);
        let start = thread_time();
        let result = call(lent);
        (result, thread_time() - start)
    };
    let mut least = once();
    let mut calls = 1;
    while least.1 < QUICK.0 && calls < QUICK.1 {
        let (result, time) = once();
        least = (result, time.min(least.1));
        calls += 1;
    }
    least
}

/// How the chooser is called.
#[derive(Clone, Copy)]
pub struct Calls {
    pub form: Form,
    /// So many numbers of work memory are lent.
    pub work: usize,
}

/// The chooser, each problem with this limit. Where a program is named, its worker is asked: another
/// build of this one, with another library.
pub struct ChooserSide {
    program: Option<PathBuf>,
    worker: Worker,
    calls: Calls,
    limit: Duration,
}

impl ChooserSide {
    pub fn start(
        program: Option<&Path>,
        calls: Calls,
        limit: Duration,
    ) -> Result<ChooserSide, String> {
        Ok(ChooserSide {
            program: program.map(Path::to_owned),
            worker: worker_of(program)?,
            calls,
            limit,
        })
    }

    /// Goes on with a new process.
    fn renew(&mut self) -> Result<(), String> {
        self.worker = worker_of(self.program.as_deref())?;
        Ok(())
    }

    /// Runs in a new process: how the memory of a process happens to lie can matter more than what
    /// two libraries differ in.
    pub fn run_anew(&mut self, bytes: &[u8]) -> Result<Run, String> {
        self.renew()?;
        self.run(bytes)
    }

    pub fn run(&mut self, bytes: &[u8]) -> Result<Run, String> {
        let run = |ending, time, measures| Run {
            ending,
            time,
            nodes: None,
            measures,
        };
        let asked = match self.calls.form {
            Form::First => BY_PASSES,
            Form::Second => "",
        };
        let line = format!("{} {asked}{}", self.calls.work, to_hex(bytes));
        let ended = match self.worker.ask(&line, self.limit) {
            worker::Ending::Answered { text, .. } => {
                let (time, measures, text) = timed_answer(&text)?;
                return Ok(run(Ending::Answered(text.to_string()), time, measures));
            }
            worker::Ending::TooSlow => Ending::GivenUp,
            worker::Ending::Died => Ending::Died,
        };
        self.renew()?;
        Ok(run(ended, self.limit, None))
    }
}

/// A worker of this program, or of the one that is named.
fn worker_of(program: Option<&Path>) -> Result<Worker, String> {
    match program {
        Some(program) => Worker::start_other(program),
        None => Worker::start(),
    }
}

/// What the worker does: for each line with the length of work memory and a problem in hex a line
/// with the nanoseconds of the call and what its search took, and then the list's text.
pub fn serve_chooser() -> Result<(), String> {
    let mut lent = junk_buffers();
    serve(|line| {
        let parts = line.split_once(' ');
        let asked = parts.and_then(|(work, rest)| Some((work.parse().ok()?, rest)));
        let (work, rest) = asked.ok_or("standard input has a line without a length")?;
        lent.work.resize(work, 0);
        let by_passes = rest.strip_prefix(BY_PASSES);
        let hex = by_passes.unwrap_or(rest);
        let bytes = from_hex(hex).ok_or("standard input has a line that is no hex")?;
        let ((answer, measures), time) = timed(&mut lent, |lent| match by_passes {
            Some(_) => (lent.lend(measure::solve_by_passes, &bytes), None),
            None => measured(lent, &bytes),
        });
        let text = answer_text(&lent, &bytes, answer);
        Ok(format!(
            "{}{}\n{text}",
            time.as_nanos(),
            measures_text(measures)
        ))
    })
}

/// The plain call, and what its search took.
fn measured(lent: &mut Buffers, bytes: &[u8]) -> (Answer, Option<Measures>) {
    let Buffers {
        costs,
        choices,
        work,
    } = lent;
    let (answer, measures) = measure::solve_measured(bytes, costs, choices, work);
    (answer, Some(measures))
}

/// What a search took as a worker tells it, behind the time.
fn measures_text(measures: Option<Measures>) -> String {
    measures.map_or(String::new(), |measures| {
        let numbers = measures.numbers();
        numbers.iter().map(|number| format!(" {number}")).collect()
    })
}

/// The time, what the search took, and the text in a worker's answer.
fn timed_answer(answer: &str) -> Result<(Duration, Option<Measures>, &str), String> {
    let parts = answer.split_once('\n');
    let (line, text) = parts.ok_or("the second process answers without a time")?;
    let numbers: Result<Vec<u64>, _> = line.split(' ').map(str::parse).collect();
    let numbers = numbers.map_err(|_| "the second process answers without a time")?;
    let measures = numbers[1..].try_into().ok().map(Measures::new);
    Ok((Duration::from_nanos(numbers[0]), measures, text))
}

/// Plain Rust with these settings, each problem with this limit.
pub struct PlainSide {
    settings: Settings,
    limit: Duration,
    lent: Buffers,
}

impl PlainSide {
    pub fn new(settings: Settings, limit: Duration) -> PlainSide {
        let lent = junk_buffers();
        PlainSide {
            settings,
            limit,
            lent,
        }
    }

    pub fn run(&mut self, bytes: &[u8]) -> Run {
        let (limit, settings) = (self.limit, self.settings);
        let (outcome, time) = timed(&mut self.lent, |lent| {
            let (costs, choices) = (&mut lent.costs, &mut lent.choices);
            solve_within(
                Some(limit),
                &settings,
                bytes,
                costs,
                choices,
                lent.work.len(),
            )
        });
        let answer = outcome.answer;
        let text = answer.map(|answer| answer_text(&self.lent, bytes, answer));
        Run {
            ending: text.map_or(Ending::GivenUp, Ending::Answered),
            time,
            nodes: Some(outcome.nodes),
            measures: None,
        }
    }
}
