//! Faulty cut calls that merge right halves wrongly; the laws of the cut must tell each of them.

use crate::brute::solve_cut;
use crate::owned::{cut_of, frontier_of, Listed};
use crate::reading::read_problem;
use frontier::lent::{Buffers, Halves};
use frontier::Problem;

use super::law::{half_problem, Cutter};

/// What is done to a right list, given the sums pair by pair.
type Tamper = fn(&mut Vec<Listed>, &[Listed]);

/// The sums with their merged choices, pair by pair, as they come from the halves' lists, without those
/// above 32 bits, which no list has.
fn merged_pairs(problem: &Problem, sides: &[u8]) -> Vec<Listed> {
    let [first, second] = [0, 1].map(|side| {
        let half = half_problem(problem, sides, side);
        frontier_of(&half.encode()).unwrap_or_default()
    });
    let merged = |one: &Listed, two: &Listed| {
        let costs = one.costs.iter().zip(&two.costs);
        let mut values = [one.choice.iter(), two.choice.iter()];
        let mut value = |&side: &u8| *values[usize::from(side)].next().expect("a value");
        Some(Listed {
            costs: costs
                .map(|(a, &b)| a.checked_add(b))
                .collect::<Option<_>>()?,
            choice: sides.iter().map(&mut value).collect(),
        })
    };
    let with_each = |one| second.iter().filter_map(move |two| merged(one, two));
    first.iter().flat_map(with_each).collect()
}

/// Cuts, and then does something wrong with the list. What has no room is not written.
fn cut_and_tamper(bytes: &[u8], sides: &[u8], lent: &mut Buffers, tamper: Tamper) -> Halves {
    let mut halves = lent.lend_cut(solve_cut, bytes, sides);
    let (Ok(reading), 0) = (read_problem(bytes), halves.answer.number) else {
        return halves;
    };
    let (mut list, _) = cut_of(bytes, sides).expect("accepted with less room");
    tamper(&mut list, &merged_pairs(&reading.problem, sides));
    let costs = list.iter().flat_map(|point| &point.costs);
    let slots = lent.costs.iter_mut().zip(costs);
    slots.for_each(|(slot, cost)| *slot = *cost);
    let values = list.iter().flat_map(|point| &point.choice);
    let slots = lent.choices.iter_mut().zip(values);
    slots.for_each(|(slot, value)| *slot = *value);
    halves.answer.count = list.len() as u32;
    halves
}

/// Hands a cut call whose list is tampered with to the test.
fn test_tampered(name: &str, test: impl Fn(&str, Cutter), tamper: Tamper) {
    test(name, &|bytes, sides, costs, choices, work| {
        let mut lent = Buffers {
            costs: costs.to_vec(),
            choices: choices.to_vec(),
            work: work.to_vec(),
        };
        let halves = cut_and_tamper(bytes, sides, &mut lent, tamper);
        costs.copy_from_slice(&lent.costs);
        choices.copy_from_slice(&lent.choices);
        work.copy_from_slice(&lent.work);
        halves
    });
}

/// Hands each cut call that keeps a wrong choice of several to the test, by name.
pub fn each_mischosen_cutter(test: impl Fn(&str, Cutter)) {
    test_tampered("choice of the first pair", &test, |list, pairs| {
        for point in list {
            let first = pairs.iter().find(|pair| pair.costs == point.costs);
            *point = first.expect("a pair with its sum").clone();
        }
    });
    test_tampered("choice of the last pair", &test, |list, pairs| {
        for point in list {
            let last = pairs.iter().rfind(|pair| pair.costs == point.costs);
            *point = last.expect("a pair with its sum").clone();
        }
    });
}

/// Hands each cut call that merges wrongly to the test, by name: also one that lists a sum as often
/// as pairs have it.
pub fn each_mismerged_cutter(test: impl Fn(&str, Cutter)) {
    each_mischosen_cutter(&test);
    test_tampered("a sum twice", &test, |list, pairs| {
        let tie = |pair: &&Listed| list.iter().any(|point| point.costs == pair.costs);
        let mut all: Vec<Listed> = pairs.iter().filter(tie).cloned().collect();
        all.sort_by(|a, b| a.costs.cmp(&b.costs));
        *list = all;
    });
}
