//! The cut call of the static library against the brute force: random problems cut at random, mixed
//! cases, and calls side by side.

use std::collections::{BTreeMap, BTreeSet};
use std::ops::Range;
use std::thread;

use frontier::lent;
use frontier::refusal::FULL;
use testing::brute::solve_cut;
use testing::checker::case::{ask_seeds, Case};
use testing::checker::law::{cut_law, exchange_law, exchanged, whole_law};
use testing::mixed::{compare_seeds, Mixed};
use testing::owned::cut_of;

/// Asks of the problems with these seeds, each cut at random, that the call answers as the brute
/// force does, lists the same with exchanged sides, and lists what the plain call lists.
fn agree_on_seeds(seeds: Range<u64>) {
    ask_seeds(seeds, |case| {
        let sides = case.cut_at_random();
        cut_law(case, &sides, &lent::solve_cut)?;
        exchange_law(case, &sides, &lent::solve_cut)?;
        whole_law(case, &sides, &lent::solve_cut, &lent::solve_problem)
    });
}

// 100,000 problems, in parts that run side by side.

#[test]
fn random_cuts_0_to_25_000() {
    agree_on_seeds(0..25_000);
}

#[test]
fn random_cuts_25_000_to_50_000() {
    agree_on_seeds(25_000..50_000);
}

#[test]
fn random_cuts_50_000_to_75_000() {
    agree_on_seeds(50_000..75_000);
}

#[test]
fn random_cuts_75_000_to_100_000() {
    agree_on_seeds(75_000..100_000);
}

/// Whether a cut has each trait that is worth counting, by name.
fn traits_of(case: &Case, sides: &[u8]) -> Vec<(&'static str, bool)> {
    let cut = cut_of(&case.bytes, sides);
    let number = cut.as_ref().err().map(|refusal| refusal.number());
    let (list, sizes) = cut.unwrap_or_default();
    let pairs = (sizes[0] * sizes[1]) as usize;
    let empty = |side: u8| number.is_none() && !sides.contains(&side);
    let other = cut_of(&case.bytes, &exchanged(sides));
    let moved = other.is_ok_and(|(_, other)| [other[1], other[0]] != sizes);
    vec![
        ("bad side list", number == Some(13)),
        ("linked record", number == Some(14)),
        ("half 0 empty", empty(0)),
        ("half 1 empty", empty(1)),
        ("several points in both", sizes[0] > 1 && sizes[1] > 1),
        ("fewer points than pairs", list.len() < pairs),
        ("no sum within the ceilings", list.is_empty() && pairs > 0),
        ("sizes moved by an exchange", moved),
        ("many points", list.len() > 8),
        ("many variables", number.is_none() && sides.len() > 12),
    ]
}

/// So that the laws are not asked of dull cuts only.
#[test]
fn random_cuts_are_varied() {
    let mut counts: BTreeMap<&str, u32> = BTreeMap::new();
    for mut case in (0..5_000).map(Case::new) {
        let sides = case.cut_at_random();
        for (name, present) in traits_of(&case, &sides) {
            *counts.entry(name).or_default() += u32::from(present);
        }
    }
    for (name, &count) in &counts {
        assert!(count >= 30, "{name} met {count} times: {counts:?}");
    }
}

/// Compares the mixed cases with these seeds; a difference ends the test.
fn compare_mixed(seeds: Range<u64>) {
    compare_seeds(seeds, |case| case.compare_cut(lent::solve_cut));
}

#[test]
fn mixed_cases_0_to_20_000() {
    compare_mixed(0..20_000);
}

#[test]
fn mixed_cases_20_000_to_40_000() {
    compare_mixed(20_000..40_000);
}

/// So that the comparison is not of dull cases only.
#[test]
fn mixed_cases_meet_every_number_of_the_call() {
    let mut met = BTreeSet::new();
    for mut case in (0..5_000).map(Mixed::new) {
        let halves = case.lent.lend_cut(solve_cut, &case.bytes, &case.sides);
        met.insert(halves.answer.number);
    }
    assert_eq!(met, (0..=FULL).collect());
}

#[test]
fn calls_side_by_side_do_not_disturb_each_other() {
    let run = |first: u64| move || compare_mixed(first..first + 1_000);
    let threads = [0, 300, 600, 900].map(|first| thread::spawn(run(first)));
    for side in threads {
        side.join().expect("a difference is told above");
    }
}
