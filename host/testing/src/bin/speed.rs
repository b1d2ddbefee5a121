//! Measures the search on the repository's problems, the chooser and plain Rust, or two libraries, in
//! the same run, and prints a table. See `docs/PERFORMANCE.md`.

use std::env;
use std::path::{Path, PathBuf};
use std::process::ExitCode;
use std::time::Duration;

use chooser::progress::show_progress;
use chooser::worker::{asked_limit, WORKER};
use frontier::limits::LEAST_WORK;
use testing::ceilings::raised;
use testing::places::data;
use testing::plain::{Settings, SETTINGS};
use testing::reading::read_problem;
use testing::speed::cases::{only_family, read_cases, read_set, Case};
use testing::speed::growth::growth_cases;
use testing::speed::nights::night_cases;
use testing::speed::report::{Columns, Report, Runs, SLOW};
use testing::speed::sides::{serve_chooser, Calls, ChooserSide, Form, PlainSide, Run};
use testing::speed::toulbar2;

const USAGE: &str = "usage: speed [--limit SECONDS] [--only FAMILY] [--plain-only | --first-form]
             [--against PROGRAM [--raised]] [--sets | --growth | --generated SEED]
             [--work NUMBERS] [--settings NAME=VALUE,..]
Runs the problems of data/nightly and data/stress through the chooser and through plain Rust, each
for at most SECONDS of processor time (default 2), compares the answers with the expected ones, and
prints a table with a row for each family: the first part of a problem's name that is no number.
  --only FAMILY  runs one family
  --plain-only   leaves the chooser out
  --first-form   lets the chooser search by the first form: most problems are then given up
  --against PROGRAM
                 measures against the library of another build of this program, not plain Rust,
                 in turns of which the quickest counts
  --raised       hands that library each ceiling one larger, because a cost equal to its ceiling
                 is not allowed by versions before 3.0.0: then its answers are the same
  --work NUMBERS lends the chooser so much work memory (default 8192, the least)
  --sets         runs three nights, the largest problems and the harder ones instead, a row for each
  --growth       runs generated problems of growing size instead: n, d and p in turn
  --generated SEED
                 runs a generated night and generated problems of the largest size instead
  --settings     changes how plain Rust works:";

/// Two libraries take so many turns at a problem.
const TURNS: usize = 5;

/// The folders of problems.
const FOLDERS: [&str; 2] = ["nightly", "stress"];

/// The folders that `--sets` runs.
const SETS: [&str; 5] = ["nightly", "night101", "night102", "corner", "stress"];

/// Which problems run.
#[derive(Clone, Copy, PartialEq, Eq)]
enum Source {
    Families,
    Sets,
    Growth,
    Generated(u64),
}

/// What the arguments ask for.
struct Options {
    limit: Duration,
    only: Option<String>,
    settings: Settings,
    plain_only: bool,
    /// Another build of this program, with another library.
    against: Option<PathBuf>,
    /// Whether the other library is handed ceilings one larger.
    raised: bool,
    calls: Calls,
    source: Source,
}

/// What the arguments ask for, or what is wrong with them.
fn asked_options(arguments: &[String]) -> Result<Options, String> {
    let mut options = Options {
        limit: SLOW,
        only: None,
        settings: Settings::default(),
        plain_only: false,
        against: None,
        raised: false,
        calls: Calls {
            form: Form::Second,
            work: LEAST_WORK,
        },
        source: Source::Families,
    };
    let mut rest = arguments.iter();
    while let Some(argument) = rest.next() {
        match argument.as_str() {
            "--limit" => options.limit = asked_limit(rest.next())?,
            "--only" => options.only = Some(rest.next().ok_or("--only takes a family")?.clone()),
            "--settings" => {
                let text = rest.next().ok_or("--settings takes settings")?;
                options.settings = Settings::parse(text)?;
            }
            "--plain-only" => options.plain_only = true,
            "--against" => {
                let program = rest.next().ok_or("--against takes a program")?;
                options.against = Some(program.into());
            }
            "--raised" => options.raised = true,
            "--first-form" => options.calls.form = Form::First,
            "--work" => options.calls.work = asked_work(rest.next())?,
            "--sets" => options.source = Source::Sets,
            "--growth" => options.source = Source::Growth,
            "--generated" => options.source = Source::Generated(asked_seed(rest.next())?),
            other => return Err(format!("there is no option '{other}'")),
        }
    }
    if options.plain_only && options.against.is_some() {
        return Err("with --plain-only nothing is measured against another library".into());
    }
    if options.raised && options.against.is_none() {
        return Err("--raised is for another library; name it with --against".into());
    }
    Ok(options)
}

/// The seed in an argument.
fn asked_seed(word: Option<&String>) -> Result<u64, String> {
    let number = word.and_then(|word| word.parse::<u32>().ok());
    number
        .map(u64::from)
        .ok_or_else(|| format!("--generated takes a number from 0 to {}", u32::MAX))
}

/// The length of work memory in an argument.
fn asked_work(word: Option<&String>) -> Result<usize, String> {
    let number = word.and_then(|word| word.parse().ok());
    let enough = number.filter(|&number: &usize| (LEAST_WORK..=1 << 24).contains(&number));
    enough.ok_or_else(|| format!("--work takes a number from {LEAST_WORK} to {}", 1 << 24))
}

impl Options {
    fn cases(&self) -> Result<Vec<Case>, String> {
        let read_all = |folders: &[&str], read: fn(&Path) -> Result<Vec<Case>, String>| {
            let mut cases = Vec::new();
            for folder in folders {
                cases.extend(read(&data(folder))?);
            }
            Ok::<Vec<Case>, String>(cases)
        };
        let cases = match self.source {
            Source::Families => read_all(&FOLDERS, read_cases)?,
            Source::Sets => read_all(&SETS, read_set)?,
            Source::Growth => growth_cases(),
            Source::Generated(seed) => night_cases(seed),
        };
        match &self.only {
            Some(family) => only_family(cases, family),
            None => Ok(cases),
        }
    }

    fn columns(&self) -> Columns {
        Columns {
            chooser: !self.plain_only,
            other: self.against.is_some(),
            toulbar2: toulbar2::is_installed(),
        }
    }
}

/// The sides that run.
struct Sides {
    chooser: Option<ChooserSide>,
    /// The chooser with another library, in place of plain Rust.
    other: Option<ChooserSide>,
    /// Whether that is handed ceilings one larger.
    raised: bool,
    plain: PlainSide,
    toulbar2: bool,
    limit: Duration,
}

impl Sides {
    fn start(options: &Options, columns: Columns) -> Result<Sides, String> {
        let start = |program| ChooserSide::start(program, options.calls, options.limit);
        let chooser = columns.chooser.then(|| start(None)).transpose()?;
        let other = options.against.as_deref();
        Ok(Sides {
            chooser,
            other: other.map(|program| start(Some(program))).transpose()?,
            raised: options.raised,
            plain: PlainSide::new(options.settings, options.limit),
            toulbar2: columns.toulbar2,
            limit: options.limit,
        })
    }

    fn run(&mut self, case: &Case) -> Result<Runs, String> {
        let (chooser, baseline) = self.run_both(case)?;
        let toulbar2 = self.run_toulbar2(case).transpose()?;
        let (toulbar2, toulbar2_own) = toulbar2.unzip();
        Ok(Runs {
            chooser,
            baseline,
            toulbar2,
            toulbar2_own: toulbar2_own.flatten(),
        })
    }

    /// The chooser and what it is measured against.
    fn run_both(&mut self, case: &Case) -> Result<(Option<Run>, Run), String> {
        let Some(chooser) = &mut self.chooser else {
            return Ok((None, self.plain.run(&case.bytes)));
        };
        let Some(other) = &mut self.other else {
            let run = chooser.run(&case.bytes)?;
            return Ok((Some(run), self.plain.run(&case.bytes)));
        };
        let other_bytes = match self.raised {
            true => raised_bytes(case)?,
            false => case.bytes.clone(),
        };
        let (one, two) = run_in_turns([chooser, other], [&case.bytes, &other_bytes])?;
        Ok((Some(one), two))
    }

    /// toulbar2 knows problems with one objective only.
    fn run_toulbar2(&self, case: &Case) -> Option<Result<(Run, Option<Duration>), String>> {
        let problem = read_problem(&case.bytes).ok()?.problem;
        let asked = self.toulbar2 && problem.objectives() == 1;
        asked.then(|| toulbar2::run(&case.bytes, self.limit))
    }
}

/// The bytes of a problem with each ceiling one larger.
fn raised_bytes(case: &Case) -> Result<Vec<u8>, String> {
    let reading = read_problem(&case.bytes).ok();
    let problem = reading.and_then(|reading| raised(reading.problem));
    let problem = problem.ok_or_else(|| {
        format!(
            "{} has a ceiling of {}, which --raised cannot make larger; leave --raised out, or lower it",
            case.name,
            u32::MAX
        )
    })?;
    Ok(problem.encode())
}

/// Two libraries take turns at a problem, each on its own bytes and each time in new processes, and the
/// least time of each counts; no further turn where one of them gives up.
fn run_in_turns(
    [chooser, other]: [&mut ChooserSide; 2],
    [bytes, other_bytes]: [&[u8]; 2],
) -> Result<(Run, Run), String> {
    let mut least = (chooser.run(bytes)?, other.run(other_bytes)?);
    for _ in 1..TURNS {
        if !(least.0.is_answered() && least.1.is_answered()) {
            break;
        }
        let again = (chooser.run_anew(bytes)?, other.run_anew(other_bytes)?);
        least = (least.0.quicker(again.0), least.1.quicker(again.1));
    }
    Ok(least)
}

/// Runs all problems and prints the table; whether all is as expected.
fn run_speed(options: &Options) -> Result<bool, String> {
    let cases = options.cases()?;
    let columns = options.columns();
    let mut sides = Sides::start(options, columns)?;
    let mut report = Report::new(columns);
    for (number, case) in (1..).zip(&cases) {
        show_progress(&format!("{number} of {}: {}", cases.len(), case.name));
        report.add(case, &sides.run(case)?);
    }
    show_progress("");
    print_report(options, columns, &report);
    Ok(report.faults.is_empty())
}

fn print_report(options: &Options, columns: Columns, report: &Report) {
    let (slow, limit) = (SLOW.as_secs_f64(), options.limit.as_secs_f64());
    println!("Processor time in seconds. A problem is given up after {limit} s.");
    let (nodes, baseline) = match columns.other {
        true => ("", "the other library's"),
        false => (" Nodes: values tried.", "plain Rust's"),
    };
    println!("Over: more than {slow} s, or given up.{nodes}");
    if columns.chooser {
        println!("Ratio: the chooser's speed over {baseline}, 1 is equal and less is slower.");
    }
    if options.raised {
        println!("The other library is handed each ceiling one larger.");
    }
    let toulbar2 = match columns.toulbar2 {
        true => "toulbar2 runs on problems with one objective; its times are what passes.",
        false => "toulbar2 is not installed, so there is no column for it.",
    };
    println!("{toulbar2}");
    println!("\n{}", report.table());
    let lines = [
        report.searches_line(),
        report.small_line(),
        report.sparse_line(),
    ];
    for line in lines.iter().flatten() {
        println!("{line}");
    }
    for fault in &report.faults {
        println!("{fault}");
    }
    println!("{}", report.summary());
}

fn main() -> ExitCode {
    let arguments: Vec<String> = env::args().skip(1).collect();
    let done = match arguments.as_slice() {
        [only] if only == WORKER => serve_chooser().map(|()| true),
        [only] if only == "--help" => {
            println!("{USAGE}\n{SETTINGS}");
            Ok(true)
        }
        _ => match asked_options(&arguments) {
            Err(complaint) => Err(format!("{complaint}\n{USAGE}\n{SETTINGS}")),
            Ok(options) => run_speed(&options),
        },
    };
    match done {
        Ok(true) => ExitCode::SUCCESS,
        Ok(false) => ExitCode::FAILURE,
        Err(complaint) => {
            eprintln!("speed: {complaint}");
            ExitCode::from(2)
        }
    }
}
