//! What the start of a process costs: the night's problems from a shell loop with a start of `chooser solve` for each,
//! and from one `chooser batch`; and what the batch call itself costs: single calls against batch calls in one process.
//! Commands: `cargo build --release --offline`, then `cargo bench --offline --bench batch`; see `docs/PERFORMANCE.md`.

#[allow(
    dead_code,
    reason = "a run over the night takes seconds, and is measured as a whole"
)]
mod measuring;

use std::fs;
use std::hint::black_box;
use std::path::Path;
use std::process::{Command, Stdio};
use std::time::{Duration, Instant};

use chooser::junk::junk_batch_buffers;
use frontier::lent::{frame, solve_batch, solve_problem, Answer, BatchBuffers};
use frontier::limits::{CHOICES_LEN, COSTS_LEN, MAX_BATCH, RESULT_LEN};
use testing::chooser_run::chooser;
use testing::places::data;
use testing::stored::{nightly, NIGHTLY};

/// Every way is measured so often, in turns; the shortest time counts, as the least disturbed.
const ROUNDS: usize = 5;

/// A loop of the shell over the problem files of the folder `$1`, with a start of the command `$0` for each.
const SOLVE_EACH: &str = "for f in \"$1\"/*.bin; do \"$0\" solve \"$f\"; done; true";

/// The same starts, each of which has nothing to solve.
const START_EACH: &str = "for f in \"$1\"/*.bin; do \"$0\" --version; done";

/// A way to go through the night.
struct Way<'a> {
    name: &'static str,
    /// How often the command is started.
    starts: usize,
    run: Box<dyn FnMut() + 'a>,
}

/// Runs a program to its end, without what it prints.
fn run(program: &mut Command) {
    let ended = program
        .stdin(Stdio::null())
        .stdout(Stdio::null())
        .stderr(Stdio::null())
        .status();
    let ended = ended.expect("a program starts");
    assert!(ended.success(), "{program:?} ends with {ended}");
}

/// The built command. Another version of it would be measured in the place of this one.
fn checked_command() -> Result<(), String> {
    let (command, due) = (
        chooser(),
        format!("chooser {}\n", env!("CARGO_PKG_VERSION")),
    );
    let mend = "run 'cargo build --release --offline' in host/ first";
    let shown = command.display();
    match Command::new(&command).arg("--version").output() {
        Err(error) => Err(format!("{shown} cannot start ({error}); {mend}")),
        Ok(told) if told.stdout != due.as_bytes() => {
            Err(format!("{shown} is of another version; {mend}"))
        }
        Ok(_) => Ok(()),
    }
}

/// All problems by single calls through one set of buffers.
fn solve_singly(lent: &mut BatchBuffers, problems: &[Vec<u8>]) {
    for problem in problems {
        let (costs, choices) = (
            &mut lent.costs[..COSTS_LEN],
            &mut lent.choices[..CHOICES_LEN],
        );
        black_box(solve_problem(
            black_box(problem),
            costs,
            choices,
            &mut lent.work,
        ));
    }
}

/// All problems by batch calls through one set of buffers.
fn solve_batches(lent: &mut BatchBuffers, batches: &[Vec<u8>]) {
    for batch in batches {
        black_box(lent.lend(solve_batch, black_box(batch)));
    }
}

/// The problems as batches of sixteen.
fn batches(problems: &[Vec<u8>]) -> Vec<Vec<u8>> {
    let batch = |problems: &[Vec<u8>]| {
        let problems: Vec<&[u8]> = problems.iter().map(Vec::as_slice).collect();
        frame(&problems)
    };
    problems.chunks(MAX_BATCH).map(batch).collect()
}

/// Times of wrong answers would say nothing: a batch call leaves in all buffers what single calls in turn leave there.
fn assert_calls_agree(problems: &[Vec<u8>]) {
    let (mut lent, mut due) = (junk_batch_buffers(), junk_batch_buffers());
    for (sixteen, batch) in problems.chunks(MAX_BATCH).zip(batches(problems)) {
        let whole = lent.lend(solve_batch, &batch);
        assert_eq!(whole, Answer::accepted(sixteen.len()));
        for (k, problem) in sixteen.iter().enumerate() {
            let [costs, choices, result] =
                [COSTS_LEN, CHOICES_LEN, RESULT_LEN].map(|length| length * k..length * (k + 1));
            let (costs, choices) = (&mut due.costs[costs], &mut due.choices[choices]);
            let answer = solve_problem(problem, costs, choices, &mut due.work);
            let numbers = [answer.number.into(), answer.place, answer.count];
            due.results[result].copy_from_slice(&numbers);
        }
        assert!(lent == due, "a batch call differs from single calls");
    }
}

/// How long a run took: what has passed, and the processor time, which other work on the machine disturbs less.
#[derive(Clone, Copy)]
struct Took {
    passed: Duration,
    processor: Duration,
}

/// The processor time of this process and of all that it has run, to a hundredth of a second.
fn processor_time() -> Duration {
    let stat = fs::read_to_string("/proc/self/stat").expect("Linux tells the times of a process");
    let (_, fields) = stat.rsplit_once(") ").expect("the name of the program");
    let ticks = fields.split(' ').skip(11).take(4).map(str::parse::<u64>);
    let ticks: u64 = ticks.map(|ticks| ticks.expect("a number")).sum();
    Duration::from_millis(10 * ticks)
}

/// The shortest times of each way. They take turns, so that a disturbance does not hit one of them only.
fn shortest(ways: &mut [Way]) -> Vec<Took> {
    let never = Took {
        passed: Duration::MAX,
        processor: Duration::MAX,
    };
    let mut shortest = vec![never; ways.len()];
    for _ in 0..ROUNDS {
        for (shortest, way) in shortest.iter_mut().zip(ways.iter_mut()) {
            let (start, before) = (Instant::now(), processor_time());
            (way.run)();
            shortest.passed = start.elapsed().min(shortest.passed);
            shortest.processor = (processor_time() - before).min(shortest.processor);
        }
    }
    shortest
}

/// All ways; the first is what the others are compared with.
fn ways<'a>(folder: &'a Path, problems: &'a [Vec<u8>], batches: &'a [Vec<u8>]) -> Vec<Way<'a>> {
    let shell = |script: &'static str| {
        let mut command = Command::new("sh");
        command.args(["-c", script]).arg(chooser()).arg(folder);
        command
    };
    let batch = |jobs: &[&'static str]| {
        let mut command = Command::new(chooser());
        command.arg("batch").arg(folder).args(jobs);
        command
    };
    let program = |name, starts, mut command: Command| Way {
        name,
        starts,
        run: Box::new(move || run(&mut command)),
    };
    let (mut singly, mut together) = (junk_batch_buffers(), junk_batch_buffers());
    vec![
        program(
            "a shell loop of `chooser solve`",
            problems.len(),
            shell(SOLVE_EACH),
        ),
        program(
            "the same loop of `chooser --version`",
            problems.len(),
            shell(START_EACH),
        ),
        program("`chooser batch --jobs 1`", 1, batch(&["--jobs", "1"])),
        program("`chooser batch`, a worker a processor", 1, batch(&[])),
        Way {
            name: "the library alone, single calls",
            starts: 0,
            run: Box::new(move || solve_singly(&mut singly, problems)),
        },
        Way {
            name: "the library alone, batch calls",
            starts: 0,
            run: Box::new(move || solve_batches(&mut together, batches)),
        },
    ]
}

fn main() {
    let problems: Vec<Vec<u8>> = nightly().into_iter().map(|stored| stored.bytes).collect();
    assert_calls_agree(&problems);
    println!("Batch calls leave what single calls leave.");
    if !measuring::is_asked() {
        return;
    }
    if let Err(complaint) = checked_command() {
        eprintln!("batch: {complaint}");
        std::process::exit(2);
    }
    let (folder, batches) = (data(NIGHTLY), batches(&problems));
    let mut ways = ways(&folder, &problems, &batches);
    let took = shortest(&mut ways);
    println!(
        "\nA night's {} problems, also as {} batches, the shortest of {ROUNDS} runs in turns; ratio: the time that \
         passed over that of the first row, less is faster\n",
        problems.len(),
        batches.len()
    );
    print_table(&ways, &took);
    print_costs(problems.len(), &took);
}

fn print_table(ways: &[Way], took: &[Took]) {
    println!("| Way | Starts of the command | Passed, s | Ratio | Processor time, s |");
    println!("|---|--:|--:|--:|--:|");
    for (way, took_by) in ways.iter().zip(took) {
        let [passed, processor, first] =
            [took_by.passed, took_by.processor, took[0].passed].map(|time| time.as_secs_f64());
        println!(
            "| {} | {} | {passed:.3} | {:.3} | {processor:.2} |",
            way.name,
            way.starts,
            passed / first
        );
    }
}

/// What a start and a batch call cost, by processor time.
fn print_costs(problems: usize, took: &[Took]) {
    let seconds: Vec<f64> = took
        .iter()
        .map(|took| took.processor.as_secs_f64())
        .collect();
    let each = |time: f64| time / problems as f64 * 1e3;
    println!(
        "\nBy processor time a start takes {:.2} ms; a problem takes {:.2} ms more in the loop, and {:.2} ms more in \
         `chooser batch --jobs 1`, than in a single call; batch calls take {:.3} times as long as single calls.",
        each(seconds[1]),
        each(seconds[0] - seconds[4]),
        each(seconds[2] - seconds[4]),
        seconds[5] / seconds[4]
    );
}
