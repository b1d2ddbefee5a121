//! Generated problems of growing size: the same kind of problem with more variables, values or
//! objectives, always the same ones.

use super::cases::Case;
use crate::brute::cost_vector;
use crate::plain::{solve_problem, Settings};
use chooser::junk::Rng;
use frontier::lent::Buffers;
use frontier::{Problem, Table, FORBIDDEN};

/// So many problems are generated of each size.
const PROBLEMS: u64 = 5;

/// The sizes of a generated problem.
#[derive(Clone, Copy)]
pub struct Size {
    pub variables: usize,
    pub domain: u8,
    pub objectives: usize,
}

/// The size from which one number grows.
const MIDDLE: Size = Size {
    variables: 20,
    domain: 5,
    objectives: 3,
};

/// The sizes in which one number grows, with the names of their rows.
fn sizes() -> Vec<(String, Size)> {
    let more_variables = (8..=24).step_by(2).map(|variables| {
        let size = Size {
            variables,
            ..MIDDLE
        };
        (format!("n={variables}"), size)
    });
    let more_values = (2..=8).map(|domain| (format!("d={domain}"), Size { domain, ..MIDDLE }));
    let more_objectives = (1..=4).map(|objectives| {
        let size = Size {
            objectives,
            ..MIDDLE
        };
        (format!("p={objectives}"), size)
    });
    more_variables
        .chain(more_values)
        .chain(more_objectives)
        .collect()
}

/// All generated problems. Nobody knows their answers beforehand.
pub fn growth_cases() -> Vec<Case> {
    let mut cases = Vec::new();
    for (family, size) in sizes() {
        for seed in 0..PROBLEMS {
            cases.push(Case {
                family: family.clone(),
                name: format!("{family} seed {seed}"),
                bytes: grown_problem(size, seed).encode(),
                expected: None,
            });
        }
    }
    cases
}

/// A problem like those of the night: a variable's values cost the more in one objective the less
/// they cost in the next, near variables have costs together, and the ceilings are a little above
/// the costs of a choice that is good in all objectives.
pub fn grown_problem(size: Size, seed: u64) -> Problem {
    let mut rng = Rng::new(seed);
    let mut problem = Problem {
        ceilings: vec![FORBIDDEN; size.objectives],
        domains: vec![size.domain; size.variables],
        tables: Vec::new(),
    };
    for variable in 0..size.variables {
        add_own_tables(&mut rng, &mut problem, variable);
    }
    for (one, other) in linked_pairs(&mut rng, size.variables) {
        add_pair_tables(&mut rng, &mut problem, [one as u8, other as u8]);
    }
    problem.ceilings = near_ceilings(&problem);
    problem
}

fn add_own_tables(rng: &mut Rng, problem: &mut Problem, variable: usize) {
    let size = problem.domains[variable];
    let ranks: Vec<u32> = (0..size).map(|_| rng.below(100) as u32).collect();
    for objective in 0..problem.objectives() {
        let cost = |rank: &u32| match objective % 2 {
            0 => *rank,
            _ => 100 - *rank,
        };
        let costs: Vec<u32> = ranks
            .iter()
            .map(|rank| cost(rank) + rng.below(40) as u32)
            .collect();
        problem
            .tables
            .push(Table::new(objective as u8, &[variable as u8], &costs));
    }
}

/// Every variable with one of the four before it, and as many pairs from anywhere.
fn linked_pairs(rng: &mut Rng, variables: usize) -> Vec<(usize, usize)> {
    let mut pairs = Vec::new();
    for variable in 1..variables {
        pairs.push((variable - 1 - rng.below(variable.min(4)), variable));
    }
    for _ in 0..variables {
        let variable = 1 + rng.below(variables - 1);
        pairs.push((rng.below(variable), variable));
    }
    pairs
}

fn add_pair_tables(rng: &mut Rng, problem: &mut Problem, scope: [u8; 2]) {
    let sizes = scope.map(|variable| usize::from(problem.domains[usize::from(variable)]));
    for objective in 0..problem.objectives() {
        let mut costs = vec![0; sizes[0] * sizes[1]];
        costs.fill_with(|| rng.below(2) as u32 * rng.below(100) as u32);
        problem
            .tables
            .push(Table::new(objective as u8, &scope, &costs));
    }
}

/// Ceilings that leave less than a twentieth above the costs of the choice with the least sum of all costs.
fn near_ceilings(problem: &Problem) -> Vec<u32> {
    let mut summed = problem.clone();
    summed.ceilings = vec![FORBIDDEN];
    for table in &mut summed.tables {
        table.objective = 0;
    }
    let (mut lent, bytes) = (Buffers::full(), summed.encode());
    let work_length = lent.work.len();
    let settings = Settings::default();
    let (costs, choices) = (&mut lent.costs, &mut lent.choices);
    let answer = solve_problem(&settings, &bytes, costs, choices, work_length);
    assert_eq!(answer.count, 1, "every sum is below 2^32");
    let tables: Vec<&Table> = problem.tables.iter().collect();
    let costs = cost_vector(problem, &tables, &lent.choices[..problem.variables()]);
    costs
        .iter()
        .map(|&cost| (cost + cost / 20).saturating_sub(1) as u32)
        .collect()
}
