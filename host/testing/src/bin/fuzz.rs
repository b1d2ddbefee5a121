//! Runs mixed inputs over the C interface with every buffer between closed pages, and compares each
//! answer with the brute force. See `docs/TRUST.md`.

use std::cell::RefCell;
use std::env;
use std::io::{self, IsTerminal};
use std::process::ExitCode;
use std::sync::atomic::{AtomicBool, AtomicU64, Ordering};
use std::time::{Duration, Instant};

use chooser::progress::show_progress;
use testing::guard::End;
use testing::guarded::Guarded;
use testing::mixed::Mixed;

const USAGE: &str = "usage: fuzz [--seed S] [N]
Runs the N mixed inputs (default 10000) with seeds S (default 0), S + 1, and so on. Each goes through
all nine calls with every buffer against a closed page above it, every fourth one again with every
buffer against a closed page below. The status is 0 if no call has touched a byte that it was not
lent and every answer is the brute force's, else 1, and 2 if the run could not be made or was
stopped (Ctrl-C), after which it says what it ran.";

const DEFAULT_INPUTS: u64 = 10_000;

/// One input in this many runs a second time, against the lower pages.
const LOWER: u64 = 4;

/// A terminal is told so often how far the run is, and anything else so often.
const TERMINAL_PAUSE: Duration = Duration::from_millis(200);
const LOG_PAUSE: Duration = Duration::from_secs(60);

/// The seed of the input under way, for the words of a process that is ended by a signal.
static SEED: AtomicU64 = AtomicU64::new(0);

extern "C" {
    fn signal(number: i32, handler: extern "C" fn(i32)) -> usize;
    fn write(file: i32, bytes: *const u8, length: usize) -> isize;
    fn _exit(status: i32) -> !;
}

/// SIGILL, SIGABRT, SIGBUS, SIGFPE and SIGSEGV of Linux.
const SIGNALS: [i32; 5] = [4, 6, 7, 8, 11];

/// SIGINT and SIGTERM of Linux.
const STOPS: [i32; 2] = [2, 15];

/// Whether the run is to end with the input under way.
static STOPPED: AtomicBool = AtomicBool::new(false);

extern "C" fn stop(_number: i32) {
    STOPPED.store(true, Ordering::Relaxed);
}

/// Says on standard error which input has ended the process. It may use nothing but `write`.
extern "C" fn tell_seed(number: i32) {
    let mut digits = [0; 20];
    say(b"\nfuzz: seed ");
    say(decimal(SEED.load(Ordering::Relaxed), &mut digits));
    say(b": a call was ended by signal ");
    say(decimal(number as u64, &mut digits));
    say(b" (11: it touched a byte that it was not lent); repeat it with 'fuzz --seed SEED 1'\n");
    // SAFETY: ends the process, as a handler may.
    unsafe { _exit(1) }
}

fn say(text: &[u8]) {
    // SAFETY: the pointer and the length are a slice's.
    unsafe { write(2, text.as_ptr(), text.len()) };
}

/// The digits of a number, in memory that is there already.
fn decimal(mut number: u64, digits: &mut [u8; 20]) -> &[u8] {
    let mut first = digits.len();
    loop {
        first -= 1;
        digits[first] = b'0' + (number % 10) as u8;
        number /= 10;
        if number == 0 {
            return &digits[first..];
        }
    }
}

/// What the arguments ask for.
struct Run {
    seed: u64,
    inputs: u64,
}

/// What the arguments ask for, or what is wrong with them.
fn asked_run(arguments: &[String]) -> Result<Run, String> {
    let mut run = Run {
        seed: 0,
        inputs: DEFAULT_INPUTS,
    };
    let mut counted = false;
    let mut rest = arguments.iter();
    while let Some(argument) = rest.next() {
        if argument == "--seed" {
            let seed = rest.next().and_then(|text| text.parse().ok());
            run.seed = seed.ok_or("--seed takes a number from 0 on")?;
        } else {
            let inputs = argument.parse().ok().filter(|&inputs: &u64| inputs > 0);
            run.inputs = inputs.ok_or(format!("'{argument}' is no number of inputs from 1 on"))?;
            if counted {
                return Err(format!("'{argument}' is a second number of inputs"));
            }
            counted = true;
        }
    }
    let last = run.seed.checked_add(run.inputs);
    last.map(|_| run)
        .ok_or("the last seed has more than 64 bits".into())
}

/// What has run so far.
#[derive(Default)]
struct Tally {
    calls: u64,
    lower: u64,
    bytes: u64,
    /// How often the plain call gave each number, 0 for an answer.
    numbers: [u64; 17],
}

/// The nine calls on an input, the buffers at one end, each compared with the brute force.
fn run_calls(case: &Mixed, guarded: &RefCell<Guarded>, tally: &mut Tally) -> Result<(), String> {
    let numbers = RefCell::new(&mut tally.numbers);
    case.compare_solve(|problem, costs, choices, work| {
        let answer = guarded.borrow_mut().solve(problem, costs, choices, work);
        numbers.borrow_mut()[usize::from(answer.number) % 17] += 1;
        answer
    })?;
    case.compare_cut(|problem, sides, costs, choices, work| {
        guarded
            .borrow_mut()
            .cut(problem, sides, costs, choices, work)
    })?;
    case.compare_points(|problem, points, work| {
        guarded.borrow_mut().points(problem, points, work)
    })?;
    case.compare_bounds(|problem, prefix| guarded.borrow_mut().bound(problem, prefix))?;
    case.compare_texts(|problem, text| guarded.borrow_mut().text(problem, text))?;
    case.compare_reads(|text, problem| guarded.borrow_mut().read(text, problem))?;
    case.compare_canonical(|problem, form| guarded.borrow_mut().canonical(problem, form))?;
    case.compare_cached(|problem, costs, choices, work, store| {
        guarded
            .borrow_mut()
            .cached(problem, costs, choices, work, store)
    })?;
    case.compare_batch(|batch, costs, choices, results, work| {
        guarded
            .borrow_mut()
            .batch(batch, costs, choices, results, work)
    })?;
    let inputs = [case.text_inputs(), case.read_inputs(), case.form_inputs()];
    let written: usize = inputs.iter().map(Vec::len).sum();
    tally.calls += (5 + case.prefixes.len() + written) as u64;
    match guarded.borrow_mut().take_fault() {
        None => Ok(()),
        Some(fault) => Err(format!("seed {}: {fault}", case.seed)),
    }
}

/// Runs an input at one end or at both.
fn run_input(seed: u64, guarded: &RefCell<Guarded>, tally: &mut Tally) -> Result<(), String> {
    SEED.store(seed, Ordering::Relaxed);
    let case = Mixed::new(seed);
    tally.bytes += case.bytes.len() as u64;
    guarded.borrow_mut().end = End::Upper;
    run_calls(&case, guarded, tally)?;
    if seed % LOWER == 0 {
        tally.lower += 1;
        guarded.borrow_mut().end = End::Lower;
        run_calls(&case, guarded, tally)?;
    }
    Ok(())
}

/// Says from time to time how far the run is.
struct Progress {
    start: Instant,
    last: Instant,
    terminal: bool,
}

impl Progress {
    fn new() -> Progress {
        let now = Instant::now();
        Progress {
            start: now,
            last: now,
            terminal: io::stderr().is_terminal(),
        }
    }

    fn show(&mut self, done: u64, all: u64) {
        let pause = if self.terminal {
            TERMINAL_PAUSE
        } else {
            LOG_PAUSE
        };
        if self.last.elapsed() < pause {
            return;
        }
        self.last = Instant::now();
        let rate = done as f64 / self.start.elapsed().as_secs_f64();
        let left = (all - done) as f64 / rate;
        let line = format!("{done} of {all} inputs, {rate:.0} a second, {left:.0} s left");
        match self.terminal {
            true => show_progress(&line),
            false => eprintln!("{line}"),
        }
    }
}

/// Runs the inputs until they end or a signal asks for the end; the first fault ends the run too.
/// How many ran, and what to say of them.
fn run_all(run: &Run, guarded: Guarded) -> Result<(u64, String), String> {
    let (guarded, mut tally) = (RefCell::new(guarded), Tally::default());
    let (mut progress, mut done) = (Progress::new(), 0);
    while done < run.inputs && !STOPPED.load(Ordering::Relaxed) {
        run_input(run.seed + done, &guarded, &mut tally)?;
        done += 1;
        progress.show(done, run.inputs);
    }
    show_progress("");
    let time = progress.start.elapsed();
    Ok((done, summary(run.seed, done, &tally, time)))
}

fn summary(seed: u64, done: u64, tally: &Tally, time: Duration) -> String {
    let refused = (1..)
        .zip(&tally.numbers[1..])
        .filter(|(_, &times)| times > 0);
    let refused: Vec<String> = refused
        .map(|(number, times)| format!("{number}: {times}"))
        .collect();
    format!(
        "{done} inputs (mixed cases, from seed {seed} on), {} bytes, {:.0} s\n\
         every input against the upper pages, {} also against the lower, {} calls\n\
         the plain call answered {} times and refused by number {}\n\
         no crash, no byte outside of a lent buffer touched, every answer as the brute force's",
        tally.bytes,
        time.as_secs_f64(),
        tally.lower,
        tally.calls,
        tally.numbers[0],
        refused.join(", "),
    )
}

fn main() -> ExitCode {
    let arguments: Vec<String> = env::args().skip(1).collect();
    if arguments == ["--help"] {
        println!("{USAGE}");
        return ExitCode::SUCCESS;
    }
    let run = match asked_run(&arguments) {
        Ok(run) => run,
        Err(complaint) => {
            eprintln!("fuzz: {complaint}\n{USAGE}");
            return ExitCode::from(2);
        }
    };
    let guarded = match Guarded::new() {
        Ok(guarded) => guarded,
        Err(error) => {
            eprintln!("fuzz: the closed pages cannot be made: {error}");
            return ExitCode::from(2);
        }
    };
    for number in SIGNALS {
        // SAFETY: the handler calls nothing that a handler may not call.
        unsafe { signal(number, tell_seed) };
    }
    for number in STOPS {
        // SAFETY: the handler does nothing but set a flag.
        unsafe { signal(number, stop) };
    }
    match run_all(&run, guarded) {
        Ok((done, summary)) if done == run.inputs => {
            println!("{summary}");
            ExitCode::SUCCESS
        }
        Ok((done, summary)) => {
            println!("{summary}");
            eprintln!("fuzz: stopped after {done} of {} inputs", run.inputs);
            ExitCode::from(2)
        }
        Err(fault) => {
            eprintln!("\nfuzz: {fault}");
            ExitCode::FAILURE
        }
    }
}
