//! The laws of the four calls over seeded random problems, and the proof that the checkers of
//! these laws can fail. A failing law prints the seed and the problem's bytes.

use std::collections::BTreeMap;

use frontier::lent;
use frontier::{Table, FORBIDDEN};
use testing::brute::{bound_prefix, list_points, solve_cut, solve_problem};
use testing::checker::case::{ask, Case};
use testing::checker::law::{
    agreement_law, bound_law, bytes_law, cut_law, exchange_law, flat_law, points_law,
    sides_refusal, whole_law, Bounder, Cutter, Solver,
};
use testing::checker::mismerged::{each_mischosen_cutter, each_mismerged_cutter};
use testing::checker::misread::{each_misreading_cutter, each_misreading_solver};
use testing::checker::mutants::{
    each_faulty_bounder, each_faulty_lister, each_misread_bounder, each_missided_cutter,
    each_missized_cutter, each_untidy_solver, each_wrong_solver, wrong_lists, WRONG_LISTS,
};
use testing::checker::{check_frontier, consistent_choices, ensure, record_starts, Verdict};
use testing::examples::{colours, objects, pair, three};
use testing::mixed::Mixed;
use testing::owned::{cut_of, frontier_of, Listed};
use testing::random::{bad_sides, damage, random_sides, uncrossed_sides};

/// How many random problems each law is asked of.
const CASES: u64 = 20_000;

/// How many are enough to catch a faulty call.
const FEW: u64 = 500;

#[test]
fn the_flat_call_lists_the_frontier() {
    ask(CASES, |case| flat_law(case, &solve_problem));
}

#[test]
fn the_flat_call_of_the_static_library_lists_the_frontier() {
    ask(CASES, |case| flat_law(case, &lent::solve_problem));
}

#[test]
fn point_records_agree_with_the_flat_form() {
    ask(CASES, |case| points_law(case, &list_points));
}

#[test]
fn a_cut_agrees_with_the_whole() {
    ask(CASES, |case| {
        let sides = uncrossed_sides(&mut case.rng, &case.problem);
        let refused = sides_refusal(&case.problem, &sides);
        ensure(refused.is_none(), || format!("{sides:?} are crossed"))?;
        cut_law(case, &sides, &solve_cut)?;
        whole_law(case, &sides, &solve_cut, &solve_problem)
    });
}

#[test]
fn crossed_and_bad_sides_are_told() {
    ask(CASES, |case| {
        let sides = random_sides(&mut case.rng, &case.problem);
        cut_law(case, &sides, &solve_cut)?;
        let sides = bad_sides(&mut case.rng, &case.problem);
        cut_law(case, &sides, &solve_cut)
    });
}

#[test]
fn sides_may_be_exchanged() {
    ask(CASES, |case| {
        let sides = uncrossed_sides(&mut case.rng, &case.problem);
        exchange_law(case, &sides, &solve_cut)?;
        let sides = random_sides(&mut case.rng, &case.problem);
        exchange_law(case, &sides, &solve_cut)?;
        let sides = bad_sides(&mut case.rng, &case.problem);
        exchange_law(case, &sides, &solve_cut)
    });
}

#[test]
fn bounds_are_bounds() {
    ask(CASES, |case| bound_law(case, &bound_prefix));
}

#[test]
fn bounds_of_the_static_library_are_bounds() {
    ask(CASES, |case| bound_law(case, &lent::bound_prefix));
}

#[test]
fn damaged_bytes_are_refused_or_read() {
    ask(CASES, |case| {
        for _ in 0..=case.rng.below(3) {
            damage(&mut case.rng, &mut case.bytes);
        }
        bytes_law(case, &solve_problem)?;
        bytes_law(case, &lent::solve_problem)
    });
}

#[test]
fn random_bytes_are_refused_or_read() {
    ask(CASES, |case| {
        let length = case.rng.below(60);
        let alphabet = b"HDOCF\x00\x01\x02\x03\x04\x08\x18\xff";
        case.bytes = (0..length).map(|_| case.rng.pick(alphabet)).collect();
        case.bytes.splice(..0, b"HD\x01\x01".iter().copied());
        bytes_law(case, &solve_problem)?;
        bytes_law(case, &lent::solve_problem)
    });
}

#[test]
fn cut_bytes_are_refused_at_their_record() {
    ask(FEW, |case| {
        let starts = record_starts(&case.problem);
        for end in 0..case.bytes.len() {
            let start = starts.iter().rfind(|&&start| start <= end);
            let bound = bound_prefix(&case.bytes[..end], &[]);
            let place = start.map(|&start| start as u32);
            let told = (bound.number, Some(bound.place)) == (2, place);
            ensure(told, || format!("{bound:?} when cut at {end}"))?;
        }
        case.bytes.push(0);
        let bound = bound_prefix(&case.bytes, &[]);
        let leftover = (bound.number, bound.place as usize) == (11, case.bytes.len() - 1);
        ensure(leftover, || format!("{bound:?} with a byte more"))
    });
}

/// What is worth counting of a case, so that the laws are not asked of dull problems only.
fn traits_of(case: &mut Case) -> Vec<String> {
    let problem = &case.problem;
    let list = frontier_of(&case.bytes).unwrap_or_default();
    let consistent = consistent_choices(problem);
    let entries = problem.tables.iter().flat_map(|table| &table.costs);
    let forbids = entries.clone().any(|&cost| cost == FORBIDDEN);
    let mut traits = vec![
        format!("p {}", problem.objectives()),
        format!("n {}", problem.variables()),
        format!("points {}", list.len().min(6)),
        format!("forbids {forbids}"),
    ];
    let costs = list.iter().flat_map(|point| &point.costs);
    let mut pairs = list
        .iter()
        .flat_map(|point| point.costs.iter().zip(&problem.ceilings));
    let no_scope = |t: &&Table| t.scope.is_empty() && t.costs[0] == FORBIDDEN;
    let present = [
        ("ceiling met", pairs.any(|(cost, ceiling)| cost == ceiling)),
        ("greatest cost", costs.clone().any(|&cost| cost == u32::MAX)),
        (
            "arity 0 forbids",
            problem.tables.iter().any(|t| no_scope(&t)),
        ),
    ];
    let present = present.into_iter().filter(|&(_, present)| present);
    traits.extend(present.map(|(name, _)| name.to_string()));
    traits.extend(
        problem
            .tables
            .iter()
            .map(|t| format!("arity {}", t.scope.len())),
    );
    let scopes = problem.tables.iter().map(|t| &t.scope);
    traits.extend(scopes.map(|scope| format!("rising {}", scope.is_sorted())));
    traits.extend(problem.domains.iter().map(|d| format!("d {d}")));
    let wrong = wrong_lists(&consistent, &list);
    traits.extend(wrong.into_iter().map(|(name, _)| name.to_string()));
    let sides = uncrossed_sides(&mut case.rng, &case.problem);
    let (_, sizes) = cut_of(&case.bytes, &sides).unwrap_or_default();
    if sizes[0] > 1 && sizes[1] > 1 {
        traits.push("cut".into());
    }
    traits
}

#[test]
fn the_random_problems_are_varied() {
    let mut counts: BTreeMap<String, u32> = BTreeMap::new();
    for seed in 0..2000 {
        for name in traits_of(&mut Case::new(seed)) {
            *counts.entry(name).or_default() += 1;
        }
    }
    let mut wanted: Vec<String> = WRONG_LISTS.map(String::from).to_vec();
    wanted.extend(["cut", "forbids true", "forbids false"].map(String::from));
    wanted.extend(["rising true", "rising false"].map(String::from));
    wanted.extend(["ceiling met", "greatest cost", "arity 0 forbids"].map(String::from));
    wanted.extend((1..=4).flat_map(|i| [format!("p {i}"), format!("d {i}")]));
    wanted.extend((1..=6).flat_map(|i| [format!("n {i}"), format!("points {i}")]));
    wanted.extend((0..=3).map(|i| format!("arity {i}")));
    wanted.push("points 0".into());
    for name in wanted {
        let count = counts.get(&name).copied().unwrap_or(0);
        assert!(count >= 40, "{name} met {count} times: {counts:?}");
    }
}

/// All wrong lists that can be made from a case's right one are rejected.
fn reject_wrong_lists(case: &mut Case) -> Verdict {
    let consistent = consistent_choices(&case.problem);
    let list = frontier_of(&case.bytes).unwrap_or_default();
    for (name, wrong) in wrong_lists(&consistent, &list) {
        let verdict = check_frontier(&consistent, &wrong);
        ensure(verdict.is_err(), || format!("{name} passes: {wrong:?}"))?;
    }
    Ok(())
}

#[test]
fn wrong_lists_are_rejected() {
    ask(2000, reject_wrong_lists);
    let examples = [
        colours([100, 100]),
        three([3, 3]),
        pair([9, 9]),
        objects([13, 100, 100]),
    ];
    for problem in examples {
        let mut case = Case::new(0);
        case.replace(problem);
        assert_eq!(reject_wrong_lists(&mut case), Ok(()));
    }
}

#[test]
fn wrong_lists_of_colours_by_hand() {
    let consistent = consistent_choices(&colours([100, 100]));
    let right = [
        Listed::new(&[1, 4], &[0, 0, 1]),
        Listed::new(&[10, 0], &[0, 0, 0]),
    ];
    let later = Listed::new(&[1, 4], &[1, 1, 0]);
    let beaten = Listed::new(&[3, 7], &[0, 1, 0]);
    let rejected = |list: &[Listed]| check_frontier(&consistent, list).is_err();
    assert!(!rejected(&right));
    assert!(rejected(&right[..1]) && rejected(&right[1..]) && rejected(&[]));
    assert!(rejected(&[later, right[1].clone()]));
    assert!(rejected(&[right[0].clone(), beaten, right[1].clone()]));
    assert!(rejected(&[right[1].clone(), right[0].clone()]));
}

/// Asserts that a law complains of a faulty call in one of a few cases.
fn assert_caught(name: &str, law: impl Fn(&mut Case) -> Verdict) {
    let caught = (0..FEW).any(|seed| law(&mut Case::new(seed)).is_err());
    assert!(caught, "{name} is not caught");
}

#[test]
fn faulty_flat_calls_are_caught() {
    each_wrong_solver(|name, call| assert_caught(name, |case| flat_law(case, call)));
    each_misreading_solver(|name, call| assert_caught(name, |case| flat_law(case, call)));
    each_untidy_solver(|name, call| assert_caught(name, |case| flat_law(case, call)));
}

#[test]
fn faulty_flat_calls_are_caught_by_the_brute_force() {
    each_wrong_solver(|name, call| assert_caught(name, |case| agreement_law(case, call)));
    each_misreading_solver(|name, call| assert_caught(name, |case| agreement_law(case, call)));
    each_untidy_solver(|name, call| assert_caught(name, |case| agreement_law(case, call)));
}

#[test]
fn faulty_flat_calls_are_caught_by_mixed_cases() {
    let assert_differs = |name: &str, call: Solver| {
        let differs = (0..FEW).any(|seed| Mixed::new(seed).compare_solve(call).is_err());
        assert!(differs, "{name} is not caught");
    };
    each_wrong_solver(assert_differs);
    each_misreading_solver(assert_differs);
    each_untidy_solver(assert_differs);
}

#[test]
fn faulty_point_and_bound_calls_are_caught() {
    each_faulty_lister(|name, call| assert_caught(name, |case| points_law(case, call)));
    each_faulty_bounder(|name, call| assert_caught(name, |case| bound_law(case, call)));
}

#[test]
fn faulty_point_calls_are_caught_by_mixed_cases() {
    each_faulty_lister(|name, call| {
        let differs = (0..FEW).any(|seed| Mixed::new(seed).compare_points(call).is_err());
        assert!(differs, "{name} is not caught");
    });
}

#[test]
fn faulty_bound_calls_are_caught_by_mixed_cases() {
    let assert_differs = |name: &str, call: Bounder| {
        let differs = (0..FEW).any(|seed| Mixed::new(seed).compare_bounds(call).is_err());
        assert!(differs, "{name} is not caught");
    };
    each_faulty_bounder(assert_differs);
    each_misread_bounder(assert_differs);
}

/// Asserts that the law of the cut complains of a faulty call.
fn assert_cut_caught(name: &str, call: Cutter) {
    assert_caught(name, |case| {
        let sides = case.cut_at_random();
        cut_law(case, &sides, call)
    });
}

#[test]
fn faulty_cut_calls_are_caught() {
    each_missized_cutter(assert_cut_caught);
    each_missided_cutter(assert_cut_caught);
    each_mismerged_cutter(assert_cut_caught);
    each_misreading_cutter(assert_cut_caught);
}

#[test]
fn faulty_cut_calls_are_caught_by_the_whole() {
    each_mismerged_cutter(|name, call| {
        assert_caught(name, |case| {
            let sides = case.cut_at_random();
            whole_law(case, &sides, call, &solve_problem)
        });
    });
}

/// A choice that depends on the order of pairs shows where the sides are exchanged.
#[test]
fn faulty_cut_calls_are_caught_by_exchanged_sides() {
    each_mischosen_cutter(|name, call| {
        assert_caught(name, |case| {
            let sides = case.cut_at_random();
            exchange_law(case, &sides, call)
        });
    });
}

#[test]
fn faulty_cut_calls_are_caught_by_mixed_cases() {
    let assert_differs = |name: &str, call: Cutter| {
        let differs = (0..FEW).any(|seed| Mixed::new(seed).compare_cut(call).is_err());
        assert!(differs, "{name} is not caught");
    };
    each_missized_cutter(assert_differs);
    each_missided_cutter(assert_differs);
    each_misreading_cutter(assert_differs);
}
