//! The same problem with its scopes in another order. Each table is turned to fit, so that every
//! choice costs what it did, and every call must answer as before.

use chooser::junk::Rng;
use frontier::{Problem, Table};

/// How many entries lie between neighbouring values of a variable in a table.
fn stride(table: &Table, domains: &[u8], variable: u8) -> usize {
    let after = table.scope.iter().rev().take_while(|&&v| v != variable);
    after
        .map(|&v| usize::from(domains[usize::from(v)]))
        .product()
}

/// The table over the same variables in this order.
fn turned(table: &Table, domains: &[u8], scope: Vec<u8>) -> Table {
    let place = |index: usize| {
        let (mut rest, mut place) = (index, 0);
        for &v in scope.iter().rev() {
            let size = usize::from(domains[usize::from(v)]);
            place += rest % size * stride(table, domains, v);
            rest /= size;
        }
        place
    };
    Table {
        objective: table.objective,
        costs: (0..table.costs.len())
            .map(|i| table.costs[place(i)])
            .collect(),
        scope,
    }
}

/// The valid problem with each scope as `arrange` leaves it, which may only move its variables.
fn arranged(problem: &Problem, mut arrange: impl FnMut(&mut [u8])) -> Problem {
    let mut turn = |table: &Table| {
        let mut scope = table.scope.clone();
        arrange(&mut scope);
        turned(table, &problem.domains, scope)
    };
    Problem {
        ceilings: problem.ceilings.clone(),
        domains: problem.domains.clone(),
        tables: problem.tables.iter().map(&mut turn).collect(),
    }
}

/// The problem with each scope in a random order.
pub fn shuffled(rng: &mut Rng, problem: &Problem) -> Problem {
    arranged(problem, |scope| rng.shuffle(scope))
}

/// The problem with rising scopes.
pub fn rising(problem: &Problem) -> Problem {
    arranged(problem, <[u8]>::sort_unstable)
}

/// The problem with falling scopes.
pub fn falling(problem: &Problem) -> Problem {
    arranged(problem, |scope| scope.sort_unstable_by(|a, b| b.cmp(a)))
}
