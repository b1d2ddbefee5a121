//! Generated nights: problems of the kinds that a night sends, and of the largest size, always the
//! same ones for a seed. A rule that was chosen by looking at stored problems is measured on these.

use super::cases::Case;
use crate::brute::cost_vector;
use chooser::junk::Rng;
use frontier::limits::{MAX_DOMAIN, MAX_VARIABLES};
use frontier::{Problem, Table, FORBIDDEN};

/// So many problems has a night, and so many of the largest size are generated with it.
const NIGHT: usize = 380;
const LARGEST: usize = 60;

/// Of a hundred problems: how many have one, two, three and four objectives, and how many have
/// ceilings of each kind.
const OBJECTIVES: [usize; 4] = [11, 37, 30, 22];
const KINDS: [usize; 4] = [56, 31, 7, 6];

/// Of a hundred variables, how many have two values, three, and so on to eight.
const DOMAINS: [usize; 7] = [30, 30, 16, 8, 8, 4, 4];

/// A ceiling that no sum reaches here, and that can be raised by one.
const LARGE: u32 = FORBIDDEN - 1;

/// What the ceilings of a problem are like.
#[derive(Clone, Copy, Debug, PartialEq, Eq)]
enum Kind {
    /// A few hundredths above the costs of a good choice.
    Budget,
    /// The same, and most of what is left goes to one objective.
    Share,
    /// So large that only forbidden entries leave choices out.
    Free,
    /// So low that no choice keeps them.
    Short,
}

/// The night of a seed, and problems of the largest size.
pub fn night_cases(seed: u64) -> Vec<Case> {
    let mut cases = Vec::new();
    for number in 0..NIGHT + LARGEST {
        let is_largest = number >= NIGHT;
        let mut rng = Rng::new(seed << 32 | number as u64);
        let problem = night_problem(&mut rng, is_largest);
        cases.push(Case {
            family: if is_largest { "largest" } else { "night" }.to_string(),
            name: format!("generated {seed} number {number}"),
            bytes: problem.encode(),
            expected: None,
        });
    }
    cases
}

/// A problem of the kinds that a night sends: every variable has costs of its own in every
/// objective, near variables have costs together, a few pairs are forbidden, some tables are over
/// three variables.
fn night_problem(rng: &mut Rng, is_largest: bool) -> Problem {
    let variables = match is_largest {
        true => MAX_VARIABLES,
        false => 4 + rng.below(MAX_VARIABLES - 3),
    };
    let domain = |rng: &mut Rng| match is_largest {
        true => MAX_DOMAIN as u8,
        false => 2 + share_of(rng, &DOMAINS) as u8,
    };
    let objectives = 1 + share_of(rng, &OBJECTIVES);
    let mut problem = Problem {
        ceilings: vec![LARGE; objectives],
        domains: (0..variables).map(|_| domain(rng)).collect(),
        tables: Vec::new(),
    };
    let scales: Vec<u32> = (0..objectives)
        .map(|_| rng.pick(&[6, 40, 300, 3_000, 20_000]))
        .collect();
    for variable in 0..variables {
        add_own_tables(rng, &mut problem, variable, &scales);
    }
    for scope in linked_scopes(rng, variables) {
        add_shared_tables(rng, &mut problem, &scope, &scales);
    }
    let kind = [Kind::Budget, Kind::Share, Kind::Free, Kind::Short][share_of(rng, &KINDS)];
    problem.ceilings = ceilings_of(rng, &problem, kind);
    problem
}

/// A number by how many of a hundred have it.
fn share_of(rng: &mut Rng, shares: &[usize]) -> usize {
    let mut left = rng.below(shares.iter().sum());
    for (number, &share) in shares.iter().enumerate() {
        if left < share {
            return number;
        }
        left -= share;
    }
    unreachable!("what is below the sum is in one of the shares")
}

/// What a variable costs by itself: about the same for all values, and in every second objective the
/// more the less it costs in the others.
fn add_own_tables(rng: &mut Rng, problem: &mut Problem, variable: usize, scales: &[u32]) {
    let size = problem.domains[variable];
    let ranks: Vec<u64> = (0..size).map(|_| 500 + rng.below(1_000) as u64).collect();
    for (objective, &scale) in scales.iter().enumerate() {
        let base = 1 + rng.below(scale as usize) as u64;
        let cost = |rank: u64| match objective % 2 {
            0 => base * rank / 1_000,
            _ => base * (2_000 - rank) / 1_000,
        };
        let mut noisy = |&rank: &u64| cost(rank) as u32 + rng.below(scale as usize / 4 + 1) as u32;
        let costs: Vec<u32> = ranks.iter().map(&mut noisy).collect();
        let scope = [variable as u8];
        let table = Table::new(objective as u8, &scope, &costs);
        problem.tables.push(table);
    }
}

/// Every variable with one of the four before it, some pairs from anywhere, and a few triples.
fn linked_scopes(rng: &mut Rng, variables: usize) -> Vec<Vec<u8>> {
    let mut scopes: Vec<Vec<u8>> = Vec::new();
    for variable in 1..variables {
        scopes.push(vec![
            (variable - 1 - rng.below(variable.min(4))) as u8,
            variable as u8,
        ]);
    }
    for _ in 0..rng.below(variables * 2 / 3 + 1) {
        scopes.push(some_variables(rng, variables, 2));
    }
    for _ in 0..rng.below(variables / 3 + 1) {
        scopes.push(some_variables(rng, variables, 3));
    }
    scopes
}

/// So many different variables, in rising order.
fn some_variables(rng: &mut Rng, variables: usize, count: usize) -> Vec<u8> {
    let mut scope: Vec<u8> = Vec::new();
    while scope.len() < count {
        let variable = rng.below(variables) as u8;
        if !scope.contains(&variable) {
            scope.push(variable);
        }
    }
    scope.sort_unstable();
    scope
}

/// What variables cost together: a pair in every objective, three variables in one. Most costs are
/// small against those of single variables, and a few combinations are forbidden.
fn add_shared_tables(rng: &mut Rng, problem: &mut Problem, scope: &[u8], scales: &[u32]) {
    let sizes = scope
        .iter()
        .map(|&v| usize::from(problem.domains[usize::from(v)]));
    let entries: usize = sizes.product();
    let only = rng.below(scales.len());
    for (objective, &scale) in scales.iter().enumerate() {
        if scope.len() == 3 && objective != only {
            continue;
        }
        let most = 2 + rng.below(scale as usize / 2 + 1);
        let costs: Vec<u32> = (0..entries)
            .map(|_| match rng.below(150) {
                0 => FORBIDDEN,
                1..=40 => 0,
                _ => rng.below(most) as u32,
            })
            .collect();
        let table = Table::new(objective as u8, scope, &costs);
        problem.tables.push(table);
    }
}

/// The ceilings of a kind: by the costs of a choice that no change of one value makes better.
fn ceilings_of(rng: &mut Rng, problem: &Problem, kind: Kind) -> Vec<u32> {
    if kind == Kind::Free {
        return problem.ceilings.clone();
    }
    let costs = good_costs(problem);
    let favoured = rng.below(costs.len());
    let above = |rng: &mut Rng, objective: usize| match kind {
        Kind::Short => 40,
        Kind::Share if objective == favoured => 110 + rng.below(30) as u64,
        Kind::Share => 101 + rng.below(4) as u64,
        _ => 102 + rng.below(12) as u64,
    };
    let ceiling = |(objective, &cost): (usize, &u64)| {
        let ceiling = cost * above(rng, objective) / 100;
        u32::try_from(ceiling).unwrap_or(LARGE)
    };
    costs.iter().enumerate().map(ceiling).collect()
}

/// The costs of a choice with a small sum of costs, each in parts of what it costs at first.
fn good_costs(problem: &Problem) -> Vec<u64> {
    let tables: Vec<&Table> = problem.tables.iter().collect();
    let mut choice = vec![0; problem.variables()];
    let first = cost_vector(problem, &tables, &choice);
    let worth = |costs: &[u64]| -> u64 {
        let parts = costs.iter().zip(&first);
        parts.map(|(cost, first)| cost * 4_096 / (first + 1)).sum()
    };
    let mut best = worth(&first);
    let mut better = true;
    while better {
        better = false;
        for variable in 0..choice.len() {
            for value in 0..problem.domains[variable] {
                let before = std::mem::replace(&mut choice[variable], value);
                let sum = worth(&cost_vector(problem, &tables, &choice));
                match sum < best {
                    true => (best, better) = (sum, true),
                    false => choice[variable] = before,
                }
            }
        }
    }
    cost_vector(problem, &tables, &choice)
}
