//! The search order of the variables.

use frontier::Problem;

/// A set of variables, one bit each.
pub type VariableSet = u32;

pub fn has(set: VariableSet, variable: usize) -> bool {
    set >> variable & 1 == 1
}

/// The set of a table's variables.
pub fn scope_set(scope: &[u8]) -> VariableSet {
    scope.iter().fold(0, |set, &v| set | 1 << v)
}

/// By which rule the search order is made, from its last variable on.
#[derive(Clone, Copy, PartialEq, Eq)]
pub enum Rule {
    /// The variables' own order.
    Natural,
    /// The variable with the fewest neighbours, the last of equal ones.
    LastOfFewest,
    /// The same, the first of equal ones.
    FirstOfFewest,
    /// The variable whose messages link the fewest pairs of values that were not linked.
    LeastFill,
}

/// The variables in the order in which they get their values.
pub fn search_order(problem: &Problem, rule: Rule) -> Vec<usize> {
    let natural = 0..problem.variables();
    if rule == Rule::Natural {
        return natural.collect();
    }
    let mut neighbours: Vec<VariableSet> = natural.map(|v| linked_with(problem, v)).collect();
    let mut left: VariableSet = (1 << problem.variables()) - 1;
    let mut eliminated = Vec::new();
    while left != 0 {
        let variable = next_variable(problem, &neighbours, left, rule);
        left &= !(1 << variable);
        eliminate(&mut neighbours, variable, left);
        eliminated.push(variable);
    }
    eliminated.reverse();
    eliminated
}

/// The variables that share a table with this one.
fn linked_with(problem: &Problem, variable: usize) -> VariableSet {
    let scopes = problem.tables.iter().map(|table| scope_set(&table.scope));
    let touching = scopes.filter(|&scope| has(scope, variable));
    touching.fold(0, |set, scope| set | scope) & !(1 << variable)
}

/// The variable of `left` that the rule takes.
fn next_variable(
    problem: &Problem,
    neighbours: &[VariableSet],
    left: VariableSet,
    rule: Rule,
) -> usize {
    let variables = (0..neighbours.len()).filter(|&v| has(left, v));
    let degree = |v: usize| (neighbours[v] & left).count_ones();
    let fill = |v: usize| fill_of(problem, neighbours, neighbours[v] & left);
    let found = match rule {
        Rule::FirstOfFewest => variables.min_by_key(|&v| degree(v)),
        Rule::LeastFill => variables.rev().min_by_key(|&v| (fill(v), degree(v))),
        _ => variables.rev().min_by_key(|&v| degree(v)),
    };
    found.expect("a variable is left")
}

/// How many pairs of values the variables of a set have that are not linked with each other yet.
fn fill_of(problem: &Problem, neighbours: &[VariableSet], near: VariableSet) -> u64 {
    let size = |v: usize| u64::from(problem.domains[v]);
    let mut fill = 0;
    for one in (0..neighbours.len()).filter(|&v| has(near, v)) {
        let others = near & !neighbours[one] & !(1 << one);
        let others = (0..one).filter(|&v| has(others, v));
        fill += size(one) * others.map(size).sum::<u64>();
    }
    fill
}

/// Links the neighbours of an eliminated variable with each other, since its messages may.
fn eliminate(neighbours: &mut [VariableSet], variable: usize, left: VariableSet) {
    let near = neighbours[variable] & left;
    for (other, links) in neighbours.iter_mut().enumerate() {
        if has(near, other) {
            *links |= near & !(1 << other);
        }
    }
}
