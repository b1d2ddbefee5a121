//! Faulty calls that read ceilings or forbidden entries otherwise than the rules do: each is a right call on
//! another problem.

use crate::brute::{solve_cut, solve_problem};
use crate::reading::read_problem;
use frontier::limits::{MAX_BYTES, MAX_TABLES};
use frontier::{Problem, Table, FORBIDDEN};

use super::law::{Cutter, Solver};

/// Makes the problem that a wrong reading takes for the one at hand.
type Misreading = fn(&mut Problem);

/// The wrong readings by name.
const MISREADINGS: [(&str, Misreading); 6] = [
    ("equal refused", equal_refused),
    ("one above allowed", one_above_allowed),
    ("greatest ceiling not reached", greatest_not_reached),
    ("forbidden by the sum alone", |problem| {
        allow(problem, |_| true);
    }),
    ("forbidden in objective 0 alone", |problem| {
        allow(problem, |table| table.objective > 0);
    }),
    ("arity 0 forbids nothing", |problem| {
        allow(problem, |table| table.scope.is_empty());
    }),
];

/// A cost equal to its ceiling is not allowed, so that a ceiling of 0 allows nothing.
fn equal_refused(problem: &mut Problem) {
    if problem.ceilings.contains(&0) {
        problem.tables.push(Table::new(0, &[], &[FORBIDDEN]));
    }
    for ceiling in &mut problem.ceilings {
        *ceiling = ceiling.saturating_sub(1);
    }
}

fn one_above_allowed(problem: &mut Problem) {
    for ceiling in &mut problem.ceilings {
        *ceiling = ceiling.saturating_add(1);
    }
}

/// A cost of 4,294,967,295 is not allowed, whatever entries it is the sum of.
fn greatest_not_reached(problem: &mut Problem) {
    for ceiling in &mut problem.ceilings {
        *ceiling = (*ceiling).min(FORBIDDEN - 1);
    }
}

/// Forbidden entries of these tables count as numbers: 1 less there, and 1 in a table more. New tables stand
/// last, so that the places of records stay.
fn allow(problem: &mut Problem, these: fn(&Table) -> bool) {
    let mut more = Vec::new();
    for table in problem.tables.iter_mut().filter(|table| these(table)) {
        if table.costs.contains(&FORBIDDEN) {
            let ones = table.costs.iter().map(|&cost| u32::from(cost == FORBIDDEN));
            more.push(Table::new(
                table.objective,
                &table.scope,
                &ones.collect::<Vec<_>>(),
            ));
            let costs = table.costs.iter_mut();
            costs.for_each(|cost| *cost = (*cost).min(FORBIDDEN - 1));
        }
    }
    problem.tables.extend(more);
}

/// The bytes of the problem that is taken for the one at hand. Bytes that are no problem stay as they are, and so
/// do those that would get beyond a limit.
fn misread(bytes: &[u8], misreading: Misreading) -> Vec<u8> {
    let Ok(reading) = read_problem(bytes) else {
        return bytes.to_vec();
    };
    let mut problem = reading.problem;
    misreading(&mut problem);
    let changed = problem.encode();
    match problem.tables.len() <= MAX_TABLES && changed.len() <= MAX_BYTES {
        true => changed,
        false => bytes.to_vec(),
    }
}

/// Hands each flat call that reads wrongly to the test, by name.
pub fn each_misreading_solver(test: impl Fn(&str, Solver)) {
    for (name, misreading) in MISREADINGS {
        test(name, &|problem, costs, choices, work| {
            solve_problem(&misread(problem, misreading), costs, choices, work)
        });
    }
}

/// Hands each cut call that reads wrongly to the test, by name.
pub fn each_misreading_cutter(test: impl Fn(&str, Cutter)) {
    for (name, misreading) in MISREADINGS {
        test(name, &|problem, sides, costs, choices, work| {
            solve_cut(&misread(problem, misreading), sides, costs, choices, work)
        });
    }
}
