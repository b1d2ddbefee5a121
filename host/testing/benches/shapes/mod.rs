//! Problems of 60,000 bytes, or a few less, in several shapes, with random entries.

use chooser::junk::Rng;
use frontier::limits::{MAX_BYTES, MAX_TABLES, MAX_VARIABLES};
use frontier::{Problem, Table};
use testing::examples::brimful;

/// A problem of four objectives and 24 variables, without tables.
fn widest(domains: [u8; MAX_VARIABLES]) -> Problem {
    Problem {
        ceilings: vec![u32::MAX; 4],
        domains: domains.to_vec(),
        tables: Vec::new(),
    }
}

/// A table over this scope, with random entries; the objectives take turns.
fn table(rng: &mut Rng, problem: &Problem, scope: &[u8]) -> Table {
    let size = |v: &u8| usize::from(problem.domains[usize::from(*v)]);
    let entries = scope.iter().map(size).product();
    Table {
        objective: (problem.tables.len() % problem.objectives()) as u8,
        scope: scope.to_vec(),
        costs: (0..entries).map(|_| rng.bits() as u32).collect(),
    }
}

/// As many tables as there may be, so they are as small as 60,000 bytes allow: 255 over pairs, of
/// 56 entries or of 64, and one charge.
pub fn small_tables(rng: &mut Rng) -> Problem {
    let mut problem = widest([8, 7].repeat(12).try_into().expect("24 sizes"));
    let pairs = (0..24).flat_map(|u| (u + 1..24).map(move |v| [u, v]));
    let (both_8, one_7): (Vec<_>, Vec<_>) = pairs
        .filter(|[u, v]| u % 2 == 0 || v % 2 == 0)
        .partition(|[u, v]| u % 2 == 0 && v % 2 == 0);
    let small = one_7.iter().cycle().take(216);
    for pair in small.chain(&both_8[..39]) {
        let added = table(rng, &problem, pair);
        problem.tables.push(added);
    }
    problem.tables.push(Table::new(3, &[], &[1]));
    problem
}

/// The largest tables: 29 over three variables of eight values, and few bytes of others.
pub fn large_tables(rng: &mut Rng) -> Problem {
    let mut problem = brimful();
    for table in &mut problem.tables {
        table.costs.fill_with(|| rng.bits() as u32);
    }
    problem
}

/// A rising scope of random variables.
fn random_scope(rng: &mut Rng, arity: usize) -> Vec<u8> {
    let mut scope = Vec::new();
    while scope.len() < arity {
        let v = rng.byte_below(MAX_VARIABLES as u8);
        if !scope.contains(&v) {
            scope.push(v);
        }
    }
    scope.sort_unstable();
    scope
}

/// Tables of all arities over domains of all sizes, as many as fit.
pub fn mixed_tables(rng: &mut Rng) -> Problem {
    let mut problem = widest(std::array::from_fn(|v| 1 + (v % 8) as u8));
    let mut length = problem.encode().len();
    for _ in 0..10_000 {
        let arity = rng.pick(&[0, 1, 2, 3, 3, 3, 3, 3, 3, 3]);
        let scope = random_scope(rng, arity);
        let added = table(rng, &problem, &scope);
        let longer = length + 4 + arity + 4 * added.costs.len();
        if longer <= MAX_BYTES && problem.tables.len() < MAX_TABLES {
            problem.tables.push(added);
            length = longer;
        }
    }
    problem
}
