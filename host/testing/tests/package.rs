//! The package `frontier` as a Rust programmer uses it: one chooser for problem after problem, problems
//! from bytes, and refusals as a type, each against the brute force.

use std::collections::BTreeSet;
use std::ops::Range;

use frontier::limits::{LEAST_WORK, MAX_POINTS};
use frontier::{Chooser, Frontier, Problem, Refusal};
use testing::brute::bound_prefix;
use testing::examples::{brimful, stairs_of, ten_problems};
use testing::mixed::Mixed;
use testing::owned::{cut_of, frontier_of, Listed};
use testing::reading::read_problem;

/// Seeds of mixed cases: good problems of all small sizes, and damaged bytes.
const SEEDS: Range<u64> = 900_000..905_000;

/// The cases that the brute force can go through: those whose work buffer is long enough.
fn searched() -> impl Iterator<Item = Mixed> {
    let cases = SEEDS.map(Mixed::new);
    cases.filter(|case| case.lent.work.len() >= LEAST_WORK)
}

fn owned(frontier: Frontier) -> Vec<Listed> {
    let points: Vec<Listed> = frontier.into_iter().map(Listed::from).collect();
    assert_eq!(
        (frontier.len(), frontier.is_empty()),
        (points.len(), points.is_empty())
    );
    points
}

#[test]
fn one_chooser_answers_problem_after_problem() {
    let mut chooser = Chooser::new();
    let (mut answered, mut refused) = (0, 0);
    for case in searched() {
        let due = frontier_of(&case.bytes);
        assert_eq!(chooser.solve(&case.bytes).map(owned), due, "{}", case.seed);
        match due {
            Ok(_) => answered += 1,
            Err(_) => refused += 1,
        }
    }
    assert!(answered > 1_000 && refused > 1_000, "{answered} {refused}");
}

#[test]
fn a_cut_has_the_frontier_and_the_half_sizes() {
    let mut chooser = Chooser::default();
    let mut answered = 0;
    for case in searched() {
        let cut = chooser.cut(&case.bytes, &case.sides);
        let cut = cut.map(|cut| (owned(cut.frontier), cut.halves.map(|size| size as u32)));
        let due = cut_of(&case.bytes, &case.sides);
        answered += usize::from(due.is_ok());
        assert_eq!(cut, due, "{}", case.seed);
    }
    assert!(answered > 500, "{answered}");
}

#[test]
fn a_bound_has_a_number_for_each_objective() {
    for case in SEEDS.map(Mixed::new) {
        for prefix in &case.prefixes {
            let due = bound_prefix(&case.bytes, prefix);
            match Chooser::bound(&case.bytes, prefix) {
                Err(refusal) => assert_eq!(due, refusal.into(), "{}", case.seed),
                Ok(bound) => {
                    let p = usize::from(case.bytes[3]);
                    assert_eq!((due.number, bound.costs()), (0, &due.least[..p]));
                }
            }
        }
    }
}

#[test]
fn room_is_as_asked_for() {
    for problem in ten_problems() {
        let bytes = problem.encode();
        let due = frontier_of(&bytes).expect("an answer");
        for room in 0..due.len() {
            let refused = Chooser::with_room(room).solve(&bytes).map(owned);
            assert_eq!(refused, Err(Refusal::Full), "room {room}");
        }
        for room in [due.len(), MAX_POINTS, usize::MAX] {
            let mut chooser = Chooser::with_room(room);
            assert_eq!(chooser.solve(&bytes).map(owned), Ok(due.clone()));
        }
    }
    let long = stairs_of(65).encode();
    assert_eq!(Chooser::new().solve(&long), Err(Refusal::Full));
}

#[test]
fn problems_come_back_from_their_bytes() {
    for case in SEEDS.map(Mixed::new) {
        let due = read_problem(&case.bytes).map(|reading| reading.problem);
        assert_eq!(Problem::decode(&case.bytes), due, "{}", case.seed);
    }
    for problem in ten_problems().into_iter().chain([brimful()]) {
        assert_eq!(Problem::decode(&problem.encode()), Ok(problem));
    }
}

#[test]
fn every_number_is_a_refusal_of_its_own() {
    let refusals: Vec<Refusal> = (1..=21).filter_map(|n| Refusal::new(n, 0)).collect();
    let numbers: Vec<u8> = refusals.iter().map(|refusal| refusal.number()).collect();
    assert_eq!(numbers, (1..=21).collect::<Vec<u8>>());
    let words: BTreeSet<&str> = refusals.iter().map(|refusal| refusal.word()).collect();
    assert_eq!(words.len(), 21);
    for refusal in refusals {
        let [number, word] = [refusal.number().to_string(), refusal.word().into()];
        let text = refusal.to_string();
        let start = format!("refused with number {number} ({word})");
        let (head, wrong) = text.split_once(": ").expect("what is wrong");
        let place = if refusal.byte().is_some() {
            " at byte 0"
        } else {
            ""
        };
        assert_eq!(head, start + place);
        assert!(wrong.len() > 20, "{text}");
    }
    for (number, place) in [
        (0, 0),
        (22, 0),
        (1, 5),
        (15, 5),
        (17, 5),
        (18, 5),
        (20, 5),
        (21, 5),
    ] {
        assert_eq!(Refusal::new(number, place), None);
    }
    let scope = Refusal::new(10, 85).expect("a refusal");
    assert_eq!((scope, scope.place()), (Refusal::Scope(85), 85));
    let text = scope.to_string();
    assert!(
        text.ends_with(": the scope has a variable that there is not, or names one twice"),
        "{text}"
    );
}

#[test]
fn nothing_comes_from_outside() {
    let lock = include_str!("../../Cargo.lock");
    let names = lock.lines().filter_map(|line| line.strip_prefix("name = "));
    let expected = ["\"chooser\"", "\"frontier\"", "\"testing\""];
    assert_eq!(names.collect::<Vec<_>>(), expected);
    assert!(!lock.contains("source ="));
    // The package that others link rests on nothing, not even for its tests.
    assert!(!include_str!("../../frontier/Cargo.toml").contains("dependencies"));
}
