//! Checkers of answers, written apart from the brute force: they work on the problem's vectors
//! where it works on bytes, and ask the definitions point by point instead of computing a list.

pub mod case;
pub mod flat;
pub mod law;
pub mod misbatched;
pub mod mismerged;
pub mod misread;
pub mod mutants;

use std::collections::BTreeSet;

use crate::owned::Listed;
use frontier::limits::{MAX_DOMAIN, MAX_OBJECTIVES, MAX_TABLES, MAX_VARIABLES};
use frontier::{Problem, Table, FORBIDDEN};

/// A verdict: what was found wrong, if anything.
pub type Verdict = Result<(), String>;

/// An error with this text unless the condition holds.
pub fn ensure(condition: bool, complaint: impl FnOnce() -> String) -> Verdict {
    if condition {
        Ok(())
    } else {
        Err(complaint())
    }
}

/// The entry for a complete choice, by strides: each scope variable counts as many entries as
/// the scope variables after it have combinations.
pub fn entry(problem: &Problem, table: &Table, choice: &[u8]) -> u64 {
    let mut index = 0;
    let mut stride = 1;
    for &v in table.scope.iter().rev() {
        index += stride * usize::from(choice[usize::from(v)]);
        stride *= usize::from(problem.domains[usize::from(v)]);
    }
    u64::from(table.costs[index])
}

/// The cost vector of a complete choice, objective by objective.
pub fn cost_of(problem: &Problem, choice: &[u8]) -> Vec<u64> {
    let objective_cost = |objective: usize| {
        let own = |table: &&Table| usize::from(table.objective) == objective;
        let tables = problem.tables.iter().filter(own);
        tables.map(|table| entry(problem, table, choice)).sum()
    };
    (0..problem.ceilings.len()).map(objective_cost).collect()
}

/// All complete choices, by extending shorter ones; not in the order of the list, on purpose.
pub fn all_choices(problem: &Problem) -> Vec<Vec<u8>> {
    let mut choices = vec![Vec::new()];
    for &domain in &problem.domains {
        let extend = |value: u8| {
            let longer = |x: &Vec<u8>| [x.as_slice(), &[value]].concat();
            choices.iter().map(longer).collect::<Vec<_>>()
        };
        choices = (0..domain).rev().flat_map(extend).collect();
    }
    choices
}

/// A choice and its cost vector.
pub type Costed = (Vec<u8>, Vec<u64>);

/// The consistent choices with their cost vectors: none meets a forbidden entry or costs more than a ceiling.
pub fn consistent_choices(problem: &Problem) -> Vec<Costed> {
    let allowed = all_choices(problem).into_iter().filter(|x| {
        let mut entries = problem.tables.iter().map(|table| entry(problem, table, x));
        entries.all(|cost| cost < u64::from(FORBIDDEN))
    });
    let costed = allowed.map(|x| {
        let costs = cost_of(problem, &x);
        (x, costs)
    });
    let ceilings = &problem.ceilings;
    let over = |costs: &[u64]| (0..costs.len()).any(|i| costs[i] > u64::from(ceilings[i]));
    costed.filter(|(_, costs)| !over(costs)).collect()
}

/// At most as large in each objective: "matches or beats".
fn at_most(one: &[u64], other: &[u64]) -> bool {
    !one.iter().zip(other).any(|(a, b)| a > b)
}

/// How many vectors the frontier has: a vector counts if none before it in the sorted order
/// is at most as large.
pub fn frontier_size(consistent: &[Costed]) -> usize {
    let mut vectors: Vec<&Vec<u64>> = consistent.iter().map(|(_, costs)| costs).collect();
    vectors.sort();
    // A vector that matches or beats another is not later in the rising order.
    let fresh = |i: &usize| !vectors[..*i].iter().any(|v| at_most(v, vectors[*i]));
    (0..vectors.len()).filter(fresh).count()
}

/// Checks one listed point by itself: its choice is consistent and has its costs.
fn check_reached(consistent: &[Costed], point: &Listed, costs: &[u64]) -> Verdict {
    let reached = |pair: &&Costed| pair.0 == point.choice && pair.1 == costs;
    ensure(consistent.iter().any(|pair| reached(&pair)), || {
        format!("{point:?} is not a consistent choice with its costs")
    })
}

/// Checks a list against the definition of the frontier, given all consistent choices: listed
/// points are reached, rising, unbeaten and earliest, and every consistent choice is matched.
pub fn check_frontier(consistent: &[Costed], list: &[Listed]) -> Verdict {
    let widen = |point: &Listed| point.costs.iter().map(|&c| u64::from(c)).collect();
    let vectors: Vec<Vec<u64>> = list.iter().map(widen).collect();
    for (point, costs) in list.iter().zip(&vectors) {
        check_reached(consistent, point, costs)?;
    }
    for pair in vectors.windows(2) {
        ensure(pair[0] < pair[1], || format!("{pair:?} do not rise"))?;
    }
    for (choice, costs) in consistent {
        let matched = vectors.iter().any(|v| at_most(v, costs));
        ensure(matched, || format!("no point matches {choice:?} {costs:?}"))?;
        for (point, vector) in list.iter().zip(&vectors) {
            let beaten = costs != vector && at_most(costs, vector);
            ensure(!beaten, || format!("{point:?} is beaten by {choice:?}"))?;
            let late = costs == vector && *choice < point.choice;
            ensure(!late, || format!("{point:?} has {choice:?} earlier"))?;
        }
    }
    Ok(())
}

/// The bound of a prefix by way of complete choices: in each objective the sum, over its tables,
/// of the least entry that any completion selects.
pub fn bound_by_choices(problem: &Problem, choices: &[Vec<u8>], prefix: &[u8]) -> [u64; 4] {
    let completions: Vec<_> = choices.iter().filter(|x| x.starts_with(prefix)).collect();
    let mut least = [0; MAX_OBJECTIVES];
    for table in &problem.tables {
        let entries = completions.iter().map(|x| entry(problem, table, x));
        least[usize::from(table.objective)] += entries.min().expect("a completion");
    }
    least
}

/// Checks the bounds of all prefixes of one choice, the empty one first: never above the cost,
/// never falling, equal to the cost at the end, and equal to the value over complete choices.
pub fn check_bounds(
    problem: &Problem,
    choices: &[Vec<u8>],
    choice: &[u8],
    bounds: &[[u64; 4]],
) -> Verdict {
    let mut cost = cost_of(problem, choice);
    cost.resize(MAX_OBJECTIVES, 0);
    for (length, bound) in bounds.iter().enumerate() {
        let prefix = &choice[..length];
        let complain = |what: &str| format!("bound {bound:?} of {prefix:?} {what} {choice:?}");
        ensure(at_most(bound, &cost), || complain("is above the cost of"))?;
        let before = &bounds[length.saturating_sub(1)];
        ensure(at_most(before, bound), || complain("falls on the way to"))?;
        let expected = bound_by_choices(problem, choices, prefix);
        ensure(*bound == expected, || complain("is not by choices, in"))?;
    }
    let last = bounds.last().map(|bound| bound.to_vec());
    let complete = bounds.len() == choice.len() + 1 && last == Some(cost);
    ensure(complete, || format!("no exact bound at all of {choice:?}"))
}

/// Whether a problem keeps every limit (reference, section 5) and every table has its size.
pub fn is_valid(problem: &Problem) -> bool {
    let (n, p) = (problem.domains.len(), problem.ceilings.len());
    let valid_table = |table: &Table| {
        let different: BTreeSet<u8> = table.scope.iter().copied().collect();
        let inside = table.scope.iter().all(|&v| usize::from(v) < n);
        let sizes = |v: &u8| usize::from(problem.domains[usize::from(*v)]);
        different.len() == table.scope.len()
            && inside
            && table.scope.len() <= 3
            && usize::from(table.objective) < p
            && table.costs.len() == table.scope.iter().map(sizes).product::<usize>()
    };
    (1..=MAX_VARIABLES).contains(&n)
        && (1..=MAX_OBJECTIVES).contains(&p)
        && problem.tables.len() <= MAX_TABLES
        && problem
            .domains
            .iter()
            .all(|&d| d >= 1 && d <= MAX_DOMAIN as u8)
        && problem.tables.iter().all(valid_table)
}

/// The first byte of each record of a valid problem, and at the end the length of the whole.
pub fn record_starts(problem: &Problem) -> Vec<usize> {
    let header = 6 + 4 * problem.ceilings.len();
    let domains = problem.domains.iter().map(|_| 3);
    let size = |table: &Table| 4 + table.scope.len() + 4 * table.costs.len();
    let lengths = std::iter::once(header).chain(domains);
    let mut starts = vec![0];
    for length in lengths.chain(problem.tables.iter().map(size)) {
        starts.push(starts[starts.len() - 1] + length);
    }
    starts
}
