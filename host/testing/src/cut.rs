//! The cut call: each half's own frontier by enumeration, then the sums over all pairs.

use crate::brute::{drop_beaten, frontier, is_within, read_with_work, write_flat, FrontierList};
use crate::reading::Reading;
use frontier::lent::Halves;
use frontier::limits::MAX_POINTS;
use frontier::{Problem, Refusal, Table};

/// A half (reference, section 10): the variables of one side in order, and their frontier list.
struct Half {
    variables: Vec<usize>,
    list: FrontierList,
}

/// The side of a record: the one side (the 0 or 1 that the side list has for a variable) that its
/// scope has. Arity 0 belongs to half 0; `None` if the scope has both sides.
fn table_side(table: &Table, sides: &[u8]) -> Option<u8> {
    let side_of = |v: &u8| sides[usize::from(*v)];
    let side = table.scope.first().map_or(0, side_of);
    let alike = table.scope.iter().all(|v| side_of(v) == side);
    alike.then_some(side)
}

/// Asks the cut rules: 13 of the side list, then 14 at the first linked record.
fn check_sides(reading: &Reading, sides: &[u8]) -> Result<(), Refusal> {
    let known = sides.iter().all(|&side| side <= 1);
    if sides.len() != reading.problem.variables() || !known {
        return Err(Refusal::Sides);
    }
    for (table, &place) in reading.problem.tables.iter().zip(&reading.places) {
        if table_side(table, sides).is_none() {
            return Err(Refusal::Linked(place));
        }
    }
    Ok(())
}

/// Makes the half of one side, keeping all ceilings.
fn make_half(problem: &Problem, sides: &[u8], side: u8) -> Half {
    let variables: Vec<usize> = (0..sides.len()).filter(|&v| sides[v] == side).collect();
    let belongs = |table: &&Table| table_side(table, sides) == Some(side);
    let tables: Vec<&Table> = problem.tables.iter().filter(belongs).collect();
    let list = frontier(problem, &variables, &tables);
    Half { variables, list }
}

/// The merged choice: each variable has the value that its half's listed choice has for it.
fn merge_choices(halves: [(&Half, &[u8]); 2], variables: usize) -> Vec<u8> {
    let mut merged = vec![0; variables];
    for (half, choice) in halves {
        for (&variable, &value) in half.variables.iter().zip(choice) {
            merged[variable] = value;
        }
    }
    merged
}

/// The sums over all pairs that are within the ceilings and not beaten by another such sum, each
/// with the earliest of the merged choices that have it. The halves have left out forbidden entries.
fn pair_sums(problem: &Problem, first: &Half, second: &Half) -> FrontierList {
    let mut sums = FrontierList::new();
    for (one, one_choice) in &first.list {
        for (two, two_choice) in &second.list {
            let sum: Vec<u64> = one.iter().zip(two).map(|(a, b)| a + b).collect();
            if !is_within(&sum, &problem.ceilings) {
                continue;
            }
            let halves = [(first, &one_choice[..]), (second, &two_choice[..])];
            let merged = merge_choices(halves, problem.variables());
            // Pairs are not met in the order of merged choices, so the earlier one is kept.
            let kept = sums.entry(sum).or_insert_with(|| merged.clone());
            if merged < *kept {
                *kept = merged;
            }
        }
    }
    drop_beaten(sums)
}

/// Lists the frontier of a problem without linked records by way of its two halves.
pub fn solve_cut(
    problem: &[u8],
    sides: &[u8],
    costs: &mut [u32],
    choices: &mut [u8],
    work: &mut [u32],
) -> Halves {
    let checked = read_with_work(problem, work)
        .and_then(|reading| check_sides(&reading, sides).map(|()| reading.problem));
    let problem = match checked {
        Ok(problem) => problem,
        Err(refusal) => return refusal.into(),
    };
    work.fill(0);
    let halves = [0, 1].map(|side| make_half(&problem, sides, side));
    if halves.iter().any(|half| half.list.len() > MAX_POINTS) {
        return Refusal::Full.into();
    }
    let list = pair_sums(&problem, &halves[0], &halves[1]);
    let answer = write_flat(&problem, &list, costs, choices);
    let size = |half: &Half| match answer.number {
        0 => half.list.len() as u32,
        _ => 0,
    };
    Halves {
        answer,
        first: size(&halves[0]),
        second: size(&halves[1]),
    }
}
