//! A worker: a second process of the same program, or of another build of it, for calls that cannot be
//! interrupted. It keeps its buffers from question to question; one that is too slow is killed.

use std::io::{self, BufRead, BufReader, Write};
use std::path::Path;
use std::process::{Child, ChildStdin, ChildStdout, Command, Stdio};
use std::sync::mpsc::{self, Receiver, RecvTimeoutError, Sender};
use std::thread;
use std::time::Duration;

use crate::clock::process_time;

/// The argument that makes a process of a program a worker.
pub const WORKER: &str = "--worker";

/// The program that runs, also where its file was replaced meanwhile by a new build.
const THIS_PROGRAM: &str = "/proc/self/exe";

/// The worker's clock is looked at so often while its answer is awaited.
const LOOK: Duration = Duration::from_millis(5);

/// How a question ended. Times are processor times of the worker.
pub enum Ending {
    Answered {
        text: String,
        time: Duration,
    },
    TooSlow,
    /// The worker ended by itself, as after a violation of memory.
    Died,
}

/// A running worker. Its process ends with it.
pub struct Worker {
    process: Child,
    questions: ChildStdin,
    answers: Receiver<String>,
}

impl Worker {
    pub fn start() -> Result<Worker, String> {
        Worker::start_with(&[WORKER])
    }

    /// Starts the program with these words, which must make it a worker.
    pub fn start_with(words: &[&str]) -> Result<Worker, String> {
        Worker::spawn(Path::new(THIS_PROGRAM), words)
            .map_err(|error| format!("a second process cannot start: {error}"))
    }

    /// Starts another build of the program as a worker.
    pub fn start_other(program: &Path) -> Result<Worker, String> {
        let named = program.display();
        Worker::spawn(program, &[WORKER])
            .map_err(|error| format!("the program {named} cannot start: {error}"))
    }

    fn spawn(program: &Path, words: &[&str]) -> io::Result<Worker> {
        let mut process = Command::new(program)
            .args(words)
            .stdin(Stdio::piped())
            .stdout(Stdio::piped())
            .spawn()?;
        let questions = process.stdin.take().expect("standard input is piped");
        let output = process.stdout.take().expect("standard output is piped");
        let (sender, answers) = mpsc::channel();
        // A thread reads the answers, because reading itself has no time limit.
        thread::spawn(move || forward_answers(output, &sender));
        Ok(Worker {
            process,
            questions,
            answers,
        })
    }

    /// Hands a line to the worker and waits for the answer, but no longer than the limit.
    pub fn ask(&mut self, question: &str, limit: Duration) -> Ending {
        let start = self.time();
        if writeln!(self.questions, "{question}").is_err() {
            return Ending::Died;
        }
        loop {
            let answer = self.answers.recv_timeout(LOOK);
            let time = self.time().saturating_sub(start);
            match answer {
                Err(RecvTimeoutError::Disconnected) => return Ending::Died,
                _ if time > limit => return Ending::TooSlow,
                Ok(text) => return Ending::Answered { text, time },
                Err(RecvTimeoutError::Timeout) => {}
            }
        }
    }

    /// The processor time so far; a process that has ended has none.
    fn time(&self) -> Duration {
        process_time(self.process.id()).unwrap_or_default()
    }
}

impl Drop for Worker {
    fn drop(&mut self) {
        // Both fail only for a process that has ended already.
        let _ = self.process.kill();
        let _ = self.process.wait();
    }
}

/// Sends on each answer that a worker prints: its lines up to an empty one.
fn forward_answers(output: ChildStdout, sender: &Sender<String>) {
    let mut text = String::new();
    for line in BufReader::new(output).lines().map_while(Result::ok) {
        if !line.is_empty() {
            text.push_str(&line);
            text.push('\n');
        } else if sender.send(std::mem::take(&mut text)).is_err() {
            return;
        }
    }
}

/// What a worker does: for each line of standard input the answer, without empty lines, and then
/// an empty line.
pub fn serve(mut answer: impl FnMut(&str) -> Result<String, String>) -> Result<(), String> {
    for line in io::stdin().lock().lines() {
        let line = line.map_err(|error| format!("standard input cannot be read: {error}"))?;
        let text = answer(&line)?;
        let mut output = io::stdout().lock();
        let written = writeln!(output, "{text}").and_then(|()| output.flush());
        written.map_err(|error| format!("standard output cannot be written: {error}"))?;
    }
    Ok(())
}

/// The time limit in an argument.
pub fn asked_limit(argument: Option<&String>) -> Result<Duration, String> {
    parse_limit(argument.ok_or("--limit takes a number of seconds")?)
}

/// The time limit in a text.
pub fn parse_limit(text: &str) -> Result<Duration, String> {
    let seconds = text.parse().ok().filter(|&seconds: &f64| seconds > 0.0);
    let limit = seconds.and_then(|seconds| Duration::try_from_secs_f64(seconds).ok());
    limit.ok_or(format!("'{text}' is no number of seconds above 0"))
}
