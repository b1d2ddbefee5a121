//! Problems whose scopes stand in another order, with tables turned to fit: every call of the static
//! library answers as before.

use std::fmt::Debug;

use chooser::junk::{junk_buffers, Rng};
use frontier::lent::{bound_prefix, list_points, solve_cut, solve_problem, Answer, PointRecord};
use frontier::limits::{LEAST_WORK, MAX_POINTS};
use frontier::{Problem, Table};
use testing::checker::case::{ask, Case};
use testing::checker::{cost_of, ensure, is_valid, Verdict};
use testing::night::chosen_text;
use testing::owned::{cut_by, frontier_by};
use testing::point_records::junk_points;
use testing::random::{random_choice, random_sides, uncrossed_sides};
use testing::stored::nightly;
use testing::turned::{falling, rising, shuffled};

/// How many random problems are turned.
const CASES: u64 = 5_000;

/// The order of its scopes is all that a turned problem has of its own.
fn check_turned(case: &mut Case, turned: &Problem) -> Verdict {
    let problem = &case.problem;
    ensure(is_valid(turned), || format!("{turned:?} is not valid"))?;
    for _ in 0..10 {
        let choice = random_choice(&mut case.rng, problem);
        let costs = [problem, turned].map(|problem| cost_of(problem, &choice));
        ensure(costs[0] == costs[1], || format!("{choice:?}: {costs:?}"))?;
    }
    Ok(())
}

#[test]
fn a_table_is_turned() {
    let problem = Problem {
        ceilings: vec![9],
        domains: vec![2, 3],
        tables: vec![Table::new(0, &[0, 1], &[4, 3, 2, 1, 5, 0])],
    };
    let turned = Table::new(0, &[1, 0], &[4, 1, 3, 5, 2, 0]);
    assert_eq!(falling(&problem).tables, [turned]);
    assert_eq!(rising(&falling(&problem)), problem);
}

#[test]
fn choices_cost_the_same() {
    ask(CASES, |case| {
        for turned in [
            shuffled(&mut case.rng, &case.problem),
            rising(&case.problem),
            falling(&case.problem),
        ] {
            check_turned(case, &turned)?;
        }
        Ok(())
    });
}

/// A call answers both problems alike.
fn alike<T: Debug + PartialEq>(pair: &[Vec<u8>; 2], call: impl Fn(&[u8]) -> T) -> Verdict {
    let [one, other] = pair.each_ref().map(|bytes| call(bytes));
    ensure(one == other, || format!("{one:?} and turned {other:?}"))
}

/// The answer and the records that it leaves, with room for 64.
fn records(bytes: &[u8]) -> (Answer, Vec<PointRecord>) {
    let mut points = junk_points(&mut Rng::new(1), MAX_POINTS);
    let answer = list_points(bytes, &mut points, &mut vec![0; LEAST_WORK]);
    (answer, points)
}

#[test]
fn every_call_answers_the_same() {
    ask(CASES, |case| {
        let problem = rising(&case.problem);
        let turned = shuffled(&mut case.rng, &problem);
        let pair = [problem.encode(), turned.encode()];
        alike(&pair, |bytes| frontier_by(solve_problem, bytes))?;
        alike(&pair, records)?;
        let choice = random_choice(&mut case.rng, &problem);
        for length in 0..=choice.len() {
            alike(&pair, |bytes| bound_prefix(bytes, &choice[..length]))?;
        }
        let uncrossed = uncrossed_sides(&mut case.rng, &problem);
        alike(&pair, |bytes| cut_by(solve_cut, bytes, &uncrossed))?;
        let any = random_sides(&mut case.rng, &problem);
        alike(&pair, |bytes| cut_by(solve_cut, bytes, &any))
    });
}

#[test]
fn the_night_answers_the_same() {
    let mut rng = Rng::new(1);
    let mut lent = junk_buffers();
    for stored in nightly() {
        let turned = shuffled(&mut rng, &stored.problem).encode();
        let text = chosen_text(&mut lent, &turned);
        assert_eq!(text, stored.expected, "{}", stored.name);
    }
}
