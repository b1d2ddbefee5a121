//! Runs the night's problems through the static library's plain call, each with a time limit, and
//! compares with the expected texts. See `docs/PERFORMANCE.md`.
//!
//! The call cannot be interrupted, so it runs in a worker, which keeps one set of buffers from
//! problem to problem. One that is too slow is killed and replaced.

use std::env;
use std::path::{Path, PathBuf};
use std::process::ExitCode;
use std::time::{Duration, Instant};

use chooser::junk::junk_buffers;
use chooser::worker::{asked_limit, serve, Ending, Worker, WORKER};
use testing::night::{chosen_text, difference, read_bytes, read_night, NightProblem};
use testing::places::data;

const USAGE: &str = "usage: night [--limit SECONDS] [FOLDER]
       night --one FILE
Runs all problems (*.bin) of FOLDER, by default those of the repository, each for at most SECONDS
of processor time (default 2), and compares with the texts in FOLDER.expected, if there is such a
file. The status is 0 if no answer differs, 1 if one does or a process ends without an answer, and
2 if the run could not be made.
With --one it prints the list of the problem in FILE, without a limit.";

const DEFAULT_FOLDER: &str = "nightly";
const DEFAULT_LIMIT: Duration = Duration::from_secs(2);

/// A line of progress comes once in this many problems.
const PROGRESS: usize = 20;

/// So many of the slowest answers are told at the end.
const SLOWEST: usize = 10;

/// What the arguments ask for.
enum Task {
    Night { folder: PathBuf, limit: Duration },
    One(PathBuf),
    Work,
}

/// What the arguments ask for, or what is wrong with them.
fn asked_task(arguments: &[String]) -> Result<Task, String> {
    let mut folder = None;
    let mut limit = DEFAULT_LIMIT;
    let mut rest = arguments.iter();
    while let Some(argument) = rest.next() {
        match (argument.as_str(), arguments.len()) {
            (WORKER, 1) => return Ok(Task::Work),
            ("--one", 2) => return Ok(Task::One(arguments[1].clone().into())),
            ("--one", _) => return Err("--one takes a file and nothing else".into()),
            ("--limit", _) => limit = asked_limit(rest.next())?,
            (option, _) if option.starts_with("--") => {
                return Err(format!("there is no option '{option}'"));
            }
            _ if folder.is_some() => return Err(format!("'{argument}' is a second folder")),
            _ => folder = Some(PathBuf::from(argument)),
        }
    }
    let folder = folder.unwrap_or_else(|| data(DEFAULT_FOLDER));
    Ok(Task::Night { folder, limit })
}

/// What a worker does: for each problem's file the list's text. All problems go through one set of
/// buffers, which starts with junk.
fn work() -> Result<(), String> {
    let mut lent = junk_buffers();
    serve(|path| Ok(chosen_text(&mut lent, &read_bytes(Path::new(path))?)))
}

/// Prints the list of one problem.
fn print_one(path: &Path) -> Result<(), String> {
    let text = chosen_text(&mut junk_buffers(), &read_bytes(path)?);
    print!("{text}");
    Ok(())
}

/// What has come of the problems so far.
#[derive(Default)]
struct Report {
    done: usize,
    compared: usize,
    differ: usize,
    died: usize,
    /// The time and name of each answer.
    answered: Vec<(Duration, String)>,
}

impl Report {
    /// Takes up how a problem ended; what is wrong is told at once.
    fn add(&mut self, problem: &NightProblem, ending: Ending) {
        self.done += 1;
        match ending {
            Ending::Answered { text, time } => {
                self.answered.push((time, problem.name.clone()));
                self.compare(problem, &text);
            }
            Ending::TooSlow => {}
            Ending::Died => {
                self.died += 1;
                println!("{}: the process ended without an answer", problem.name);
            }
        }
    }

    /// Compares an answer with the expected text, if there is one.
    fn compare(&mut self, problem: &NightProblem, text: &str) {
        let Some(expected) = &problem.expected else {
            return;
        };
        self.compared += 1;
        if text != expected {
            self.differ += 1;
            println!("{}: {}", problem.name, difference(text, expected));
        }
    }

    fn print_progress(&self, all: usize) {
        let (done, answered, differ) = (self.done, self.answered.len(), self.differ);
        println!("{done} of {all} done, {answered} answered, {differ} differ");
    }

    fn print_end(&mut self, limit: Duration, total: Duration) {
        self.answered.sort_by(|one, other| other.cmp(one));
        println!("\nSlowest answers:");
        for (time, name) in self.answered.iter().take(SLOWEST) {
            println!("{:9.3} s  {name}", time.as_secs_f64());
        }
        println!(
            "\n{} of {} problems answered within {} s, {} of them compared, {} differ, {} processes \
             died, {:.1} s in total",
            self.answered.len(),
            self.done,
            limit.as_secs_f64(),
            self.compared,
            self.differ,
            self.died,
            total.as_secs_f64()
        );
    }
}

/// Runs a folder's problems; whether all is as expected.
fn run_night(folder: &Path, limit: Duration) -> Result<bool, String> {
    let problems = read_night(folder)?;
    for problem in &problems {
        read_bytes(&problem.path)?; // so that a bad file is told before the run and not in it
    }
    let expected = problems.iter().filter(|problem| problem.expected.is_some());
    let (all, expected, seconds) = (problems.len(), expected.count(), limit.as_secs_f64());
    println!("{all} problems, {expected} with an expected text, {seconds} s for each");
    let (start, mut report, mut worker) = (Instant::now(), Report::default(), Worker::start()?);
    for problem in &problems {
        let ending = worker.ask(&problem.path.display().to_string(), limit);
        if !matches!(ending, Ending::Answered { .. }) {
            worker = Worker::start()?;
        }
        report.add(problem, ending);
        if report.done % PROGRESS == 0 && report.done < all {
            report.print_progress(all);
        }
    }
    report.print_end(limit, start.elapsed());
    Ok(report.differ == 0 && report.died == 0)
}

fn main() -> ExitCode {
    let arguments: Vec<String> = env::args().skip(1).collect();
    let done = match asked_task(&arguments) {
        Err(complaint) => Err(format!("{complaint}\n{USAGE}")),
        Ok(Task::Work) => work().map(|()| true),
        Ok(Task::One(path)) => print_one(&path).map(|()| true),
        Ok(Task::Night { folder, limit }) => run_night(&folder, limit),
    };
    match done {
        Ok(true) => ExitCode::SUCCESS,
        Ok(false) => ExitCode::FAILURE,
        Err(complaint) => {
            eprintln!("night: {complaint}");
            ExitCode::from(2)
        }
    }
}
