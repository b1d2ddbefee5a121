//! The bound call: in each objective the sum of the least entries that agree with a prefix.

use crate::reading::read_problem;
use frontier::lent::Least;
use frontier::limits::MAX_OBJECTIVES;
use frontier::{Refusal, Table};

/// Whether the entry at `index` is for values that agree with the prefix. The values are read
/// off the index from the last scope variable, which runs fastest.
fn entry_agrees(table: &Table, domains: &[u8], prefix: &[u8], mut index: usize) -> bool {
    for &v in table.scope.iter().rev() {
        let variable = usize::from(v);
        let size = usize::from(domains[variable]);
        let fixed = prefix.get(variable);
        if fixed.is_some_and(|&value| usize::from(value) != index % size) {
            return false;
        }
        index /= size;
    }
    true
}

/// The least entry of a table that agrees with the prefix. A prefix within its domains leaves at
/// least one entry, so the 0 for none is never taken.
fn least_entry(table: &Table, domains: &[u8], prefix: &[u8]) -> u64 {
    let agreeing = (0..table.costs.len()).filter(|&i| entry_agrees(table, domains, prefix, i));
    let least = agreeing.map(|i| table.costs[i]).min();
    u64::from(least.unwrap_or(0))
}

/// Bounds the cost of every completion of a prefix: values for variables 0, 1, and so on.
pub fn bound_prefix(problem: &[u8], prefix: &[u8]) -> Least {
    let problem = match read_problem(problem) {
        Ok(reading) => reading.problem,
        Err(refusal) => return refusal.into(),
    };
    let in_domain = prefix.iter().zip(&problem.domains).all(|(v, d)| v < d);
    if prefix.len() > problem.variables() || !in_domain {
        return Refusal::Prefix.into();
    }
    let mut least = [0; MAX_OBJECTIVES];
    for table in &problem.tables {
        least[usize::from(table.objective)] += least_entry(table, &problem.domains, prefix);
    }
    Least {
        number: 0,
        place: 0,
        least,
    }
}
