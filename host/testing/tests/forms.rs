//! The two forms of the search give the same answer, and more work memory changes none: number,
//! place, count and every buffer.

use std::ops::Range;

use chooser::junk::{junk, Rng};
use frontier::lent::{solve_problem, Answer, SolveCall};
use frontier::limits::{LEAST_WORK, MAX_OBJECTIVES, MAX_POINTS, MAX_VARIABLES};
use frontier::measure::{solve_by_passes, solve_measured, Form, Measures};
use frontier::{Problem, Table, FORBIDDEN};
use testing::checker::case::ask_seeds;
use testing::checker::law::agreement_law;
use testing::random::{random_problem, Shape};

#[test]
fn the_first_form_answers_as_the_brute_force_does() {
    ask_seeds(300_000..320_000, |case| {
        agreement_law(case, &solve_by_passes)
    });
}

/// What a call answers and leaves in buffers that held junk, with room for 64 points; of work
/// memory, whether all of it is cleared.
fn outcome(call: SolveCall, bytes: &[u8], work: usize) -> (Answer, Vec<u32>, Vec<u8>, bool) {
    let (costs, choices) = (MAX_POINTS * MAX_OBJECTIVES, MAX_POINTS * MAX_VARIABLES);
    let mut lent = junk(&mut Rng::new(7), costs, choices, work);
    let answer = lent.lend(call, bytes);
    let cleared = lent.work.iter().all(|&number| number == 0);
    (answer, lent.costs, lent.choices, cleared)
}

/// Problems that are larger than the brute force can list in a test.
fn larger_problems(seeds: Range<u64>, each: impl Fn(&[u8], &str)) {
    let shape = Shape {
        variables: 10,
        domain: 6,
        tables: 25,
        choices: 100_000,
        ..Shape::small()
    };
    for seed in seeds {
        let problem = random_problem(&mut Rng::new(seed), &shape);
        each(&problem.encode(), &format!("seed {seed}"));
    }
}

#[test]
fn the_measuring_call_answers_as_the_brute_force_does() {
    ask_seeds(320_000..330_000, |case| {
        agreement_law(case, &|problem, costs, choices, work| {
            solve_measured(problem, costs, choices, work).0
        })
    });
}

#[test]
fn the_measuring_call_tells_what_the_search_took() {
    larger_problems(0..100, |bytes, name| {
        let mut lent = junk(&mut Rng::new(7), 256, 1_536, LEAST_WORK);
        let (costs, choices, work) = (&mut lent.costs, &mut lent.choices, &mut lent.work);
        let (_, measures) = solve_measured(bytes, costs, choices, work);
        assert_eq!(measures.form, Some(Form::Second), "{name}");
        assert_eq!((measures.plans, measures.failed), (1, 0), "{name}");
        assert!(measures.passes >= 1, "{name}");
        let (_, again) = solve_measured(bytes, costs, choices, work);
        assert_eq!(measures, again, "{name}");
        let (_, refused) = solve_measured(&bytes[1..], costs, choices, work);
        assert_eq!(refused.numbers(), [0; 5], "{name}");
    });
}

/// Twelve variables of three values and two objectives, with this ceiling for both. Objective 0 has tables over pairs
/// in which two of five entries forbid and the others cost nothing, objective 1 has what each value costs.
fn forbidding_problem(rng: &mut Rng, ceiling: u32) -> Problem {
    let (variables, values) = (12, 3);
    let mut tables = Vec::new();
    for u in 0..variables {
        tables.push(Table {
            objective: 1,
            scope: vec![u],
            costs: (0..values).map(|_| rng.below(20) as u32).collect(),
        });
        for v in u + 1..variables {
            if !rng.once_in(3) {
                continue;
            }
            tables.push(Table {
                objective: 0,
                scope: vec![u, v],
                costs: (0..values * values)
                    .map(|_| rng.pick(&[FORBIDDEN, FORBIDDEN, 0, 0, 0]))
                    .collect(),
            });
        }
    }
    Problem {
        ceilings: vec![ceiling; 2],
        domains: vec![values; usize::from(variables)],
        tables,
    }
}

/// No sum comes near the greatest ceiling, so that it leaves out what the next one does. The second form counts in
/// 32 bits: if it told forbidden entries less well there, it would look at more partial choices.
#[test]
fn forbidden_entries_are_seen_as_well_under_the_greatest_ceiling() {
    let measured = |seed: u64, ceiling: u32| -> (Answer, Measures) {
        let bytes = forbidding_problem(&mut Rng::new(seed), ceiling).encode();
        let mut lent = junk(&mut Rng::new(7), 256, 1_536, LEAST_WORK);
        solve_measured(&bytes, &mut lent.costs, &mut lent.choices, &mut lent.work)
    };
    for seed in 0..50 {
        assert_eq!(
            measured(seed, FORBIDDEN),
            measured(seed, FORBIDDEN - 1),
            "seed {seed}"
        );
    }
}

#[test]
fn both_forms_answer_the_same_for_larger_problems() {
    larger_problems(0..400, |bytes, name| {
        let first = outcome(solve_by_passes, bytes, LEAST_WORK);
        let second = outcome(solve_problem, bytes, LEAST_WORK);
        assert_eq!(first, second, "{name}");
    });
}

#[test]
fn more_work_memory_changes_no_answer() {
    larger_problems(1_000..1_400, |bytes, name| {
        let least = outcome(solve_problem, bytes, LEAST_WORK);
        for work in [LEAST_WORK + 1, 2 * LEAST_WORK, 8 * LEAST_WORK] {
            let more = outcome(solve_problem, bytes, work);
            assert_eq!(least, more, "{name} with {work} numbers");
        }
    });
}
