//! The calls of a batch: which problems go into one, the workers that make them, and what comes of each problem.

use std::collections::{BTreeMap, VecDeque};
use std::sync::mpsc::{self, Receiver, RecvTimeoutError, Sender};
use std::sync::{Condvar, Mutex, MutexGuard};
use std::thread;
use std::time::{Duration, Instant};

use super::batch_cache::Cache;
use super::batch_files::{read_problem, Listed};
use super::batch_summary::seconds;
use crate::batch_calls::Called;
use crate::batch_csv::{Row, Told};
use crate::batch_worker::{question, Reply, TWICE};
use crate::progress::show_progress;
use crate::worker::{Ending, Worker, WORKER};
use frontier::limits::MAX_BATCH;

/// A call of several problems may take so much processor time, and no more than one problem may. Then they are run
/// singly: a slow problem is known by its own time, and little work is done in vain.
const TOGETHER: Duration = Duration::from_secs(1);

/// The progress line is renewed so often.
const PROGRESS: Duration = Duration::from_millis(200);

/// How a run is made.
pub struct Run {
    pub jobs: usize,
    /// The processor time of one problem.
    pub limit: Duration,
    pub twice: bool,
    /// One problem in each call.
    pub singly: bool,
    pub cache: Option<Cache>,
}

impl Run {
    /// Runs the problems, at least one, on all workers, and takes up what comes of each.
    pub fn run_all(&self, problems: &[Listed]) -> Batch {
        let jobs = self.jobs.min(problems.len());
        let most = match self.singly {
            true => 1,
            // No worker is to be without work.
            false => problems.len().div_ceil(jobs).min(MAX_BATCH),
        };
        let (due, mut batch) = (Due::new(problems.len(), most), Batch::default());
        let (sender, endings) = mpsc::channel();
        thread::scope(|scope| {
            for _ in 0..jobs {
                let (sender, due) = (sender.clone(), &due);
                scope.spawn(move || self.work(problems, due, &sender));
            }
            drop(sender);
            batch.take_all(problems, &endings);
        });
        batch
    }

    /// What one worker's thread does: the next call, until there are no more.
    fn work(&self, problems: &[Listed], due: &Due, sender: &Sender<Sent>) {
        let mut worker = None;
        while let Some(call) = due.next() {
            let (mut asked, mut bytes, mut sent) = (Vec::new(), Vec::new(), Vec::new());
            for index in call {
                match read_problem(&problems[index].path) {
                    Ok((read, _)) => {
                        asked.push(index);
                        bytes.push(read);
                    }
                    Err(complaint) => sent.push((vec![index], End::Failed(complaint))),
                }
            }
            if !asked.is_empty() {
                let end = self.ask(&mut worker, &bytes);
                sent.push((asked, end.unwrap_or_else(End::Failed)));
            }
            let again = sent.iter().filter(|(asked, end)| end.is_again(asked));
            due.end(again.flat_map(|(asked, _)| asked));
            if sent.into_iter().any(|sent| sender.send(sent).is_err()) {
                return;
            }
        }
    }

    /// Makes a call in a worker; one that does not answer is replaced at the next call.
    fn ask(&self, kept: &mut Option<Worker>, problems: &[Vec<u8>]) -> Result<End, String> {
        let limit = match problems.len() {
            1 => self.limit,
            _ => self.limit.min(TOGETHER),
        };
        let mut worker = match kept.take() {
            Some(worker) => worker,
            None => self.start_worker()?,
        };
        let calls = 1 + u32::from(self.twice);
        let ending = worker.ask(&question(problems), limit.saturating_mul(calls));
        Ok(match ending {
            Ending::TooSlow => End::GivenUp(limit),
            Ending::Died => End::Died,
            Ending::Answered { text, .. } => {
                let reply = Reply::parse(&text);
                let reply = reply.filter(|reply| reply.called.told.len() == problems.len());
                let reply = reply.ok_or("a worker's answer cannot be understood")?;
                if let Some(cache) = self.cache.as_ref().filter(|_| !reply.changes.is_empty()) {
                    cache.take_changes(&reply.changes)?;
                }
                *kept = Some(worker);
                End::Told(reply.called)
            }
        })
    }

    /// Starts a worker, with the store as the last answer has left it.
    fn start_worker(&self) -> Result<Worker, String> {
        let words = ["batch", WORKER, TWICE];
        let mut worker = Worker::start_with(&words[..2 + usize::from(self.twice)])?;
        if let Some(cache) = &self.cache {
            // The limit is for problems.
            let Ending::Answered { .. } = worker.ask(&cache.line(), Duration::MAX) else {
                return Err("a second process has not taken the cache".into());
            };
        }
        Ok(worker)
    }
}

/// The calls that are still to be made, each as the indices of its problems. While one is made, more may become due.
struct Due {
    calls: Mutex<Calls>,
    changed: Condvar,
}

struct Calls {
    waiting: VecDeque<Vec<usize>>,
    running: usize,
}

impl Due {
    /// So many problems, in their order, with at most so many in a call.
    fn new(problems: usize, most: usize) -> Due {
        let call = |first: usize| (first..problems.min(first + most)).collect();
        let calls = Calls {
            waiting: (0..problems).step_by(most).map(call).collect(),
            running: 0,
        };
        Due {
            calls: Mutex::new(calls),
            changed: Condvar::new(),
        }
    }

    fn lock(&self) -> MutexGuard<'_, Calls> {
        self.calls.lock().expect("no thread has panicked")
    }

    /// The next call, which runs until its end is told; none when all have ended.
    fn next(&self) -> Option<Vec<usize>> {
        let is_unclear = |calls: &mut Calls| calls.waiting.is_empty() && calls.running > 0;
        let calls = self.changed.wait_while(self.lock(), is_unclear);
        let mut calls = calls.expect("no thread has panicked");
        let next = calls.waiting.pop_front()?;
        calls.running += 1;
        Some(next)
    }

    /// A call has ended, and these of its problems are due again, singly and before all others.
    fn end<'a>(&self, again: impl DoubleEndedIterator<Item = &'a usize>) {
        let mut calls = self.lock();
        calls.running -= 1;
        again
            .rev()
            .for_each(|&index| calls.waiting.push_front(vec![index]));
        self.changed.notify_all();
    }
}

/// How a call ended.
enum End {
    Told(Called),
    GivenUp(Duration),
    Died,
    /// The file can no longer be read, or a worker cannot start. The other problems still run.
    Failed(String),
}

impl End {
    /// Whether the problems of such a call are run again singly, which tells the one that it was.
    fn is_again(&self, asked: &[usize]) -> bool {
        asked.len() > 1 && matches!(self, End::GivenUp(_) | End::Died)
    }
}

/// What a worker's thread sends: the indices of a call's problems, and how it ended.
type Sent = (Vec<usize>, End);

/// A call that was answered.
pub struct Call {
    /// Its processor time.
    pub microseconds: u64,
    /// Its problems by name, and how many they are if it has several.
    pub names: String,
    /// The same for a line that a terminal has room for.
    short: String,
}

/// What has come of the problems.
#[derive(Default)]
pub struct Batch {
    /// What was told of each problem, by its index.
    told: BTreeMap<usize, Told>,
    /// A line for each problem that was given up, whose worker died, or with which something was wrong; by the
    /// index of the problem, of a call's first one if it is about a call.
    pub faults: Vec<(usize, String)>,
    pub calls: Vec<Call>,
    /// So many problems have an answer, or will have none.
    done: usize,
}

impl Batch {
    /// Takes up the endings of all calls, as they come.
    fn take_all(&mut self, problems: &[Listed], endings: &Receiver<Sent>) {
        let start = Instant::now();
        loop {
            match endings.recv_timeout(PROGRESS) {
                Ok((asked, end)) => self.take(problems, &asked, end),
                Err(RecvTimeoutError::Timeout) => {}
                Err(RecvTimeoutError::Disconnected) => break,
            }
            show_progress(&self.progress(problems.len(), start.elapsed()));
        }
        show_progress("");
        self.faults.sort_by_key(|(index, _)| *index);
    }

    fn take(&mut self, problems: &[Listed], asked: &[usize], end: End) {
        let again = end.is_again(asked);
        if !again {
            self.done += asked.len();
        }
        match end {
            End::Told(called) => self.take_called(problems, asked, called),
            End::Failed(complaint) => {
                for index in asked {
                    self.add_fault(problems, &[*index], &complaint);
                }
            }
            End::GivenUp(_) if again => {}
            End::GivenUp(limit) => {
                let complaint = format!("given up after {} s", limit.as_secs_f64());
                self.add_fault(problems, asked, &complaint);
            }
            // That is told in any case: each problem by itself may be answered.
            End::Died if again => {
                let complaint = "the process ended without an answer; they were run again singly";
                self.add_fault(problems, asked, complaint);
            }
            End::Died => self.add_fault(problems, asked, "the process ended without an answer"),
        }
    }

    fn take_called(&mut self, problems: &[Listed], asked: &[usize], called: Called) {
        let (names, first) = (names(problems, asked), &problems[asked[0]].name);
        let (names, short) = match asked.len() {
            1 => (names, first.clone()),
            all => (
                format!("{names}, {all} in one call"),
                format!("{first} and {} more", all - 1),
            ),
        };
        self.calls.push(Call {
            microseconds: called.told.first().map_or(0, |told| told.microseconds),
            names,
            short,
        });
        self.told.extend(asked.iter().copied().zip(called.told));
        for fault in called.faults {
            let of_one = fault.problem.and_then(|k| asked.get(k..=k));
            self.add_fault(problems, of_one.unwrap_or(asked), &fault.complaint);
        }
    }

    fn add_fault(&mut self, problems: &[Listed], asked: &[usize], complaint: &str) {
        let line = format!("{}: {complaint}", names(problems, asked));
        self.faults.push((asked[0], line));
    }

    /// How far the run is, in a line that a terminal has room for.
    fn progress(&self, problems: usize, time: Duration) -> String {
        let rate = self.done as f64 / time.as_secs_f64();
        let mut line = format!("{} of {problems}, {rate:.1} a second", self.done);
        if let Some(call) = self.calls.iter().max_by_key(|call| call.microseconds) {
            let time = seconds(call.microseconds);
            line.push_str(&format!(", slowest {time} s {}", call.short));
        }
        line
    }

    /// A row for each problem, in order.
    pub fn rows(&self, problems: &[Listed]) -> Vec<Row> {
        let row = |(index, problem): (usize, &Listed)| Row {
            name: problem.name.clone(),
            bytes: problem.length,
            told: self.told.get(&index).copied(),
        };
        problems.iter().enumerate().map(row).collect()
    }
}

/// What to call the problems of a call, at least one: they stand in the order of their names.
fn names(problems: &[Listed], asked: &[usize]) -> String {
    let [first, last] = [asked[0], asked[asked.len() - 1]].map(|index| &problems[index].name);
    match asked.len() {
        1 => first.clone(),
        _ => format!("{first} to {last}"),
    }
}
