//! Measures what frontier lists of the problems of the last variables would take: the field calls
//! these problems Russian dolls. For each of the night's problems it counts, from the last variable
//! to the second, the points of the list, and how many 32-bit numbers their costs would fill.
//! See `docs/DECISIONS.md`, entry 59.

use std::process::ExitCode;

use frontier::lent;
use frontier::lent::Buffers;
use frontier::limits::MAX_POINTS;
use frontier::{Problem, Table};
use testing::night::{read_bytes, read_night};
use testing::places::data;
use testing::reading::read_problem;

/// What the plain call has for messages; see `docs/ARCHITECTURE.md`, work memory.
const FREE_NUMBERS: usize = 3_628;

/// The problem of the variables from `first` on: their domains, and the tables over them alone.
fn suffix(problem: &Problem, first: usize) -> Problem {
    let inside = |table: &&Table| table.scope.iter().all(|&v| usize::from(v) >= first);
    let moved = |table: &Table| Table {
        scope: table.scope.iter().map(|&v| v - first as u8).collect(),
        ..table.clone()
    };
    Problem {
        ceilings: problem.ceilings.clone(),
        domains: problem.domains[first..].to_vec(),
        tables: problem.tables.iter().filter(inside).map(moved).collect(),
    }
}

/// How many points each doll's list has, none where it has more than 64.
fn list_sizes(problem: &Problem, buffers: &mut Buffers) -> Vec<Option<usize>> {
    let size = |first| {
        let bytes = suffix(problem, first).encode();
        let answer = buffers.lend(lent::solve_problem, &bytes);
        (answer.number == 0).then_some(answer.count as usize)
    };
    (1..problem.variables()).map(size).collect()
}

fn run() -> Result<(), String> {
    let mut buffers = Buffers::full();
    let (mut dolls, mut longer) = (0, 0);
    let mut numbers = Vec::new();
    for night_problem in read_night(&data("nightly"))? {
        let bytes = read_bytes(&night_problem.path)?;
        let problem = read_problem(&bytes)
            .map_err(|_| format!("{}: refused", night_problem.name))?
            .problem;
        let sizes = list_sizes(&problem, &mut buffers);
        dolls += sizes.len();
        longer += sizes.iter().filter(|size| size.is_none()).count();
        let points: usize = sizes
            .iter()
            .map(|size| size.unwrap_or(MAX_POINTS + 1))
            .sum();
        numbers.push(points * problem.objectives());
    }
    numbers.sort_unstable();
    let over = numbers.iter().filter(|&&n| n > FREE_NUMBERS).count();
    println!(
        "{} problems with {dolls} dolls; {longer} lists have more than {MAX_POINTS} points",
        numbers.len()
    );
    println!(
        "costs of all lists (65 points counted for a longer one): median {} numbers, most {}; \
         in {over} problems more than {FREE_NUMBERS}",
        numbers[numbers.len() / 2],
        numbers[numbers.len() - 1],
    );
    Ok(())
}

fn main() -> ExitCode {
    match run() {
        Ok(()) => ExitCode::SUCCESS,
        Err(why) => {
            eprintln!("dolls: {why}");
            ExitCode::FAILURE
        }
    }
}
