//! The frontier by going through all complete choices, and the two calls that list it.

use std::collections::BTreeMap;

pub use crate::bound::bound_prefix;
pub use crate::cut::solve_cut;

use crate::reading::{read_problem, Reading};
use frontier::lent::{Answer, PointRecord};
use frontier::limits::{LEAST_WORK, MAX_OBJECTIVES, MAX_POINTS, MAX_VARIABLES};
use frontier::{Problem, Refusal, Table, FORBIDDEN};

/// A frontier list: cost vectors in rising order, objective 0 compared first, each with its
/// earliest choice. The order of the map's keys is that of the reference, section 3.
pub(crate) type FrontierList = BTreeMap<Vec<u64>, Vec<u8>>;

/// Whether each cost is at most its ceiling.
pub(crate) fn is_within(costs: &[u64], ceilings: &[u32]) -> bool {
    costs.iter().zip(ceilings).all(|(c, &t)| *c <= u64::from(t))
}

/// Whether `one` matches or beats `other`: it is at most as large in each objective, which holds
/// of a vector and itself too.
fn matches_or_beats(one: &[u64], other: &[u64]) -> bool {
    one.iter().zip(other).all(|(a, b)| a <= b)
}

/// Whether `one` beats `other`: at most as large in each objective, and the two differ.
fn beats(one: &[u64], other: &[u64]) -> bool {
    matches_or_beats(one, other) && one != other
}

/// Takes out every vector that another one beats.
pub(crate) fn drop_beaten(list: FrontierList) -> FrontierList {
    let vectors: Vec<Vec<u64>> = list.keys().cloned().collect();
    let unbeaten = |v: &[u64]| !vectors.iter().any(|w| beats(w, v));
    list.into_iter().filter(|(v, _)| unbeaten(v)).collect()
}

/// The entry of a table that an assignment of all the problem's variables selects.
fn selected_entry(table: &Table, domains: &[u8], assignment: &[u8]) -> u64 {
    let step = |index: usize, &v: &u8| {
        let variable = usize::from(v);
        index * usize::from(domains[variable]) + usize::from(assignment[variable])
    };
    u64::from(table.costs[table.scope.iter().fold(0, step)])
}

/// Whether an assignment meets a forbidden entry in one of these tables, of whichever objective.
fn meets_forbidden(problem: &Problem, tables: &[&Table], assignment: &[u8]) -> bool {
    let entry = |table: &Table| selected_entry(table, &problem.domains, assignment);
    tables.iter().any(|table| entry(table) == FORBIDDEN.into())
}

/// The cost vector of an assignment under some of a problem's tables.
pub(crate) fn cost_vector(problem: &Problem, tables: &[&Table], assignment: &[u8]) -> Vec<u64> {
    let mut costs = vec![0; problem.objectives()];
    for table in tables {
        let entry = selected_entry(table, &problem.domains, assignment);
        costs[usize::from(table.objective)] += entry;
    }
    costs
}

/// Steps `assignment` to the next choice of `variables`, the last of them running fastest;
/// false after the last choice. No variables have one choice, the empty one.
pub(crate) fn next_choice(assignment: &mut [u8], domains: &[u8], variables: &[usize]) -> bool {
    for &variable in variables.iter().rev() {
        if assignment[variable] + 1 < domains[variable] {
            assignment[variable] += 1;
            return true;
        }
        assignment[variable] = 0;
    }
    false
}

/// The frontier list of some of a problem's variables and tables, under all its ceilings. The
/// scopes of the tables must lie within the variables. A choice has the variables' values in order.
pub(crate) fn frontier(problem: &Problem, variables: &[usize], tables: &[&Table]) -> FrontierList {
    let mut met = FrontierList::new();
    let mut assignment = vec![0; problem.variables()];
    loop {
        let costs = cost_vector(problem, tables, &assignment);
        let forbidden = meets_forbidden(problem, tables, &assignment);
        if !forbidden && is_within(&costs, &problem.ceilings) {
            // Choices are met from the earliest on, so the first with a vector stays.
            met.entry(costs)
                .or_insert_with(|| variables.iter().map(|&v| assignment[v]).collect());
        }
        if !next_choice(&mut assignment, &problem.domains, variables) {
            return drop_beaten(met);
        }
    }
}

/// The frontier list of a whole problem.
fn whole_frontier(problem: &Problem) -> FrontierList {
    let variables: Vec<usize> = (0..problem.variables()).collect();
    let tables: Vec<&Table> = problem.tables.iter().collect();
    frontier(problem, &variables, &tables)
}

/// Reads the problem and then asks for enough work numbers: refusals 1 to 12.
pub(crate) fn read_with_work(bytes: &[u8], work: &[u32]) -> Result<Reading, Refusal> {
    let reading = read_problem(bytes)?;
    if work.len() < LEAST_WORK {
        return Err(Refusal::Work);
    }
    Ok(reading)
}

/// Room (reference, section 7): how many points the lent flat buffers can take, at most 64.
pub(crate) fn flat_room(problem: &Problem, costs: &[u32], choices: &[u8]) -> usize {
    let by_costs = costs.len() / problem.objectives();
    let by_choices = choices.len() / problem.variables();
    by_costs.min(by_choices).min(MAX_POINTS)
}

/// Writes the list into the flat buffers, or refuses with 15 and leaves them as they are.
pub(crate) fn write_flat(
    problem: &Problem,
    list: &FrontierList,
    costs: &mut [u32],
    choices: &mut [u8],
) -> Answer {
    if list.len() > flat_room(problem, costs, choices) {
        return Refusal::Full.into();
    }
    // A listed cost is at most a 32-bit ceiling, so the narrowing keeps it.
    let listed_costs = list.keys().flatten().map(|&cost| cost as u32);
    for (slot, cost) in costs.iter_mut().zip(listed_costs) {
        *slot = cost;
    }
    for (slot, &value) in choices.iter_mut().zip(list.values().flatten()) {
        *slot = value;
    }
    Answer::accepted(list.len())
}

/// Lists the frontier into the flat buffers.
pub fn solve_problem(
    problem: &[u8],
    costs: &mut [u32],
    choices: &mut [u8],
    work: &mut [u32],
) -> Answer {
    let problem = match read_with_work(problem, work) {
        Ok(reading) => reading.problem,
        Err(refusal) => return refusal.into(),
    };
    work.fill(0);
    write_flat(&problem, &whole_frontier(&problem), costs, choices)
}

/// Lists the frontier into point records. Room is then the list's length, at most 64.
pub fn list_points(problem: &[u8], points: &mut [PointRecord], work: &mut [u32]) -> Answer {
    let problem = match read_with_work(problem, work) {
        Ok(reading) => reading.problem,
        Err(refusal) => return refusal.into(),
    };
    work.fill(0);
    let list = whole_frontier(&problem);
    if list.len() > points.len().min(MAX_POINTS) {
        return Refusal::Full.into();
    }
    for (slot, (costs, choice)) in points.iter_mut().zip(&list) {
        *slot = PointRecord {
            costs: [0; MAX_OBJECTIVES],
            choice: [0; MAX_VARIABLES],
        };
        for (place, &cost) in slot.costs.iter_mut().zip(costs) {
            *place = cost as u32;
        }
        slot.choice[..choice.len()].copy_from_slice(choice);
    }
    Answer::accepted(list.len())
}
