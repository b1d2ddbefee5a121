//! `chooser batch`: all problems of a folder, their times and answers, and the comparison with an
//! earlier run.

use std::collections::BTreeMap;
use std::ffi::{OsStr, OsString};
use std::num::NonZero;
use std::thread;
use std::time::{Duration, Instant};

use super::batch_cache::Cache;
use super::batch_files::{list_problems, name_one_file, read_earlier};
use super::batch_run::Run;
use super::batch_summary::summary;
use super::{
    check_target, print_out, sort_words, write_file, Asked, Failure, Known, Outcome,
    STANDARD_STREAM,
};
use crate::batch_csv::{compare_rows, write_rows, Row};
use crate::batch_worker::{serve_batch, TWICE};
use crate::worker::{parse_limit, WORKER};

pub const HELP: &str = "\
usage: chooser batch DIR [--jobs N] [--limit SECONDS] [--csv OUT]
                     [--compare FILE] [--twice] [--cache FILE]

Runs every problem of the folder DIR (files NAME.bin, in the order of their
names), up to 16 in a call, and tells the slowest ten calls, the refusals by
number, and the total. If a call takes over 1 s, its problems are run singly.

    --jobs N         so many workers side by side (default: one a processor)
    --limit SECONDS  give a problem up after so much processor time (default 60)
    --csv OUT        write name, bytes, number, place, count, microseconds of
                     processor time and digest (64-bit FNV-1a of the listed
                     costs and choices) of every problem to the file OUT; there
                     is one problem in a call then, so that each has its time
    --compare FILE   name every difference from an earlier run's CSV
    --twice          call again from other junk in all buffers, and compare
    --cache FILE     keep the answers of the last 32 problems in FILE for later
                     runs too, and tell hits; one worker, one problem in a call

The exit status is 0 if every problem was answered or refused; 1 if one was
given up, differs in the second call, or is missing, new or different in
--compare; 2 if the words are wrong or a file cannot be read or written.

Example:
    chooser batch examples --twice
";

const OPTIONS: &[Known] = &[
    (JOBS, "N"),
    (LIMIT, "SECONDS"),
    (CSV, "OUT"),
    (COMPARE, "FILE"),
    (TWICE, ""),
    (CACHE, "FILE"),
];
const JOBS: &str = "--jobs";
const LIMIT: &str = "--limit";
const CSV: &str = "--csv";
const COMPARE: &str = "--compare";
const CACHE: &str = "--cache";

const MOST_JOBS: usize = 256;
const DEFAULT_LIMIT: Duration = Duration::from_secs(60);

pub fn run(words: &[OsString]) -> Result<Outcome, Failure> {
    if let Some((first, rest)) = words.split_first() {
        if first == WORKER {
            let served = serve_batch(rest == [TWICE]);
            return served.map(|()| Outcome::Answered).map_err(Failure::misuse);
        }
    }
    let asked = sort_words(words, OPTIONS)?;
    let plan = Plan::new(&asked)?;
    let problems = list_problems(asked.operands(["DIR"])?[0])?;
    let start = Instant::now();
    let batch = plan.run.run_all(&problems);
    let (rows, cached) = (batch.rows(&problems), plan.run.cache.is_some());
    let compared = plan.earlier.map(|earlier| compare_rows(&rows, earlier));
    let is_right = batch.faults.is_empty()
        && compared
            .as_ref()
            .is_none_or(|found| found.differences.is_empty());
    let text = summary(&batch, &rows, cached, compared.as_ref(), start.elapsed());
    print_out(&text)?;
    let table = asked.value(CSV).map_or(Ok(()), |out| {
        write_file(out, write_rows(&rows, cached).as_bytes())
    });
    // The answers are kept also where the table cannot be written.
    plan.run.cache.map_or(Ok(()), |cache| cache.write())?;
    table?;
    Ok(match is_right {
        true => Outcome::Answered,
        false => Outcome::Refused,
    })
}

/// What is asked for.
struct Plan {
    run: Run,
    earlier: Option<BTreeMap<String, Row>>,
}

impl Plan {
    /// Looks at all options before anything runs, since a run can take hours.
    fn new(asked: &Asked) -> Result<Plan, Failure> {
        let processors = || thread::available_parallelism().map_or(1, NonZero::get);
        let limit = match asked.value(LIMIT) {
            None => DEFAULT_LIMIT,
            Some(text) => parse_limit(&text.to_string_lossy()).map_err(Failure::misuse)?,
        };
        if let Some(out) = asked.value(CSV) {
            check_csv(out, asked.value(COMPARE))?;
        }
        let jobs = asked.number(JOBS, 1..=MOST_JOBS)?;
        let jobs = match asked.value(CACHE) {
            None => jobs.unwrap_or_else(processors),
            Some(file) => {
                check_cache(file, jobs, asked)?;
                1
            }
        };
        let earlier = asked.value(COMPARE).map(read_earlier).transpose()?;
        let cache = asked.value(CACHE).map(Cache::read).transpose()?;
        let run = Run {
            jobs,
            limit,
            twice: asked.has(TWICE),
            // The table has a time for each problem, and only a call of one can take its answer from a store.
            singly: asked.has(CSV) || cache.is_some(),
            cache,
        };
        Ok(Plan { run, earlier })
    }
}

/// Asks that a cache can be written after the run, that it is a file of its own, and that there is one worker.
fn check_cache(file: &OsStr, jobs: Option<usize>, asked: &Asked) -> Result<(), Failure> {
    if file == STANDARD_STREAM {
        let complaint = format!("{CACHE} takes a file, which is read and written; name one");
        return Err(Failure::misuse(complaint));
    }
    check_target(file)?;
    for option in [CSV, COMPARE] {
        let other = asked.value(option);
        if other.is_some_and(|other| other == file || name_one_file(other, file)) {
            return Err(Failure::misuse(format!(
                "{CACHE} and {option} name the same file; name another file behind {CACHE}"
            )));
        }
    }
    match jobs {
        None | Some(1) => Ok(()),
        Some(_) => Err(Failure::misuse(format!(
            "{CACHE} works with one worker, since each answer may rest on the one before; leave \
             {JOBS} out"
        ))),
    }
}

/// Asks, before a run that may take hours, that its table can be written afterwards and does not
/// replace the one that it is compared with.
fn check_csv(out: &OsStr, earlier: Option<&OsStr>) -> Result<(), Failure> {
    check_target(out)?;
    if earlier.is_some_and(|earlier| name_one_file(earlier, out)) {
        return Err(Failure::misuse(format!(
            "{CSV} and {COMPARE} name the same file, so the earlier run would be lost; name \
             another file behind {CSV}"
        )));
    }
    Ok(())
}
