//! The cut call and the call for point records on the stored problems, most of which are larger than
//! the brute force can list: against the expected texts, with every buffer between closed pages.

use std::collections::BTreeMap;

use chooser::junk::{junk, Rng};
use frontier::lent;
use frontier::lent::SolveCall;
use frontier::limits::{LEAST_WORK, MAX_POINTS};
use frontier::{Problem, Refusal};
use testing::brute::solve_problem;
use testing::checker::flat::{check_work, Known};
use testing::checker::law::{exchanged, half_problem};
use testing::checker::Verdict;
use testing::guard::End;
use testing::guarded::Guarded;
use testing::owned::frontier_by;
use testing::point_records::junk_points;
use testing::random::components;
use testing::stored::{nightly, quick_stress, Stored};

/// The calls with all that they are lent between closed pages, against those at one end.
fn calls(end: End) -> Guarded {
    let mut calls = Guarded::new().expect("closed pages");
    calls.end = end;
    calls
}

/// What the check of each problem gives; a complaint ends the test with the problem's name.
fn check_each<T>(
    problems: &[Stored],
    mut check: impl FnMut(&Stored) -> Result<T, String>,
) -> Vec<T> {
    let mut checked = |stored: &Stored| match check(stored) {
        Ok(given) => given,
        Err(complaint) => panic!("{}: {complaint}", stored.name),
    };
    problems.iter().map(&mut checked).collect()
}

/// What a cut must answer: the points, or 15 for one of its two reasons.
#[derive(Clone, Copy, Debug, PartialEq, Eq, PartialOrd, Ord)]
enum Due {
    Listed,
    WholeAbove64,
    HalfAbove64,
}

/// How often each is due.
fn tally(dues: &[Due]) -> BTreeMap<Due, usize> {
    let mut tally = BTreeMap::new();
    for &due in dues {
        *tally.entry(due).or_default() += 1;
    }
    tally
}

/// A half with at most this many choices is listed by the brute force.
const FEW_CHOICES: u64 = 20_000;

/// How many points a half's frontier has, as a problem of its own; 65 stands for every number above
/// 64. Of a half that is the whole problem the expected text says it.
fn half_size(stored: &Stored, sides: &[u8], side: u8) -> usize {
    let half = half_problem(&stored.problem, sides, side);
    if half == stored.problem {
        return stored.frontier().1;
    }
    let call: SolveCall = match half.choices() <= FEW_CHOICES {
        true => solve_problem,
        false => lent::solve_problem,
    };
    match frontier_by(call, &half.encode()) {
        Ok(list) => list.len(),
        Err(refusal) => {
            assert_eq!(refusal, Refusal::Full, "{}", stored.name);
            MAX_POINTS + 1
        }
    }
}

/// A problem with a side list that no table crosses, and what is known of its halves.
struct Cut<'a> {
    stored: &'a Stored,
    sides: Vec<u8>,
    sizes: [usize; 2],
}

impl<'a> Cut<'a> {
    fn new(stored: &'a Stored, sides: Vec<u8>) -> Cut<'a> {
        let sizes = [0, 1].map(|side| half_size(stored, &sides, side));
        Cut {
            stored,
            sides,
            sizes,
        }
    }

    /// The same with exchanged sides. The halves stay what they were, since no table is over nothing.
    fn exchanged(&self) -> Cut<'a> {
        let tables = &self.stored.problem.tables;
        assert!(tables.iter().all(|table| !table.scope.is_empty()));
        Cut {
            stored: self.stored,
            sides: exchanged(&self.sides),
            sizes: [self.sizes[1], self.sizes[0]],
        }
    }

    /// What must be answered, with room enough, where the whole has so many points.
    fn due(&self, whole: usize) -> Due {
        if self.sizes.iter().any(|&size| size > MAX_POINTS) {
            Due::HalfAbove64
        } else if whole > MAX_POINTS {
            Due::WholeAbove64
        } else {
            Due::Listed
        }
    }

    /// Makes the cut with room for so many points, and checks the answer, the half sizes and every
    /// element of the buffers.
    fn check(&self, calls: &mut Guarded, room: usize) -> Result<Due, String> {
        let Stored { problem, bytes, .. } = self.stored;
        let (list, whole) = self.stored.frontier();
        let due = self.due(whole);
        let (costs, choices) = (room * problem.objectives(), room * problem.variables());
        let before = junk(&mut Rng::new(1), costs, choices, LEAST_WORK);
        let mut lent = before.clone();
        let (costs, choices, work) = (&mut lent.costs, &mut lent.choices, &mut lent.work);
        let cut = calls.cut(bytes, &self.sides, costs, choices, work);
        calls.take_fault().map_or(Ok(()), Err)?;
        let known = Known {
            problem,
            list: &list,
            size: match due {
                Due::Listed => whole,
                _ => MAX_POINTS + 1,
            },
        };
        let sizes = self.sizes.map(|size| size as u32);
        known.check_cut(sizes, &before, &lent, cut).map(|()| due)
    }

    /// Checks the cut as it is, with room for 64 points, and with its sides exchanged and room for
    /// exactly as many as there are, against the pages at the other end.
    fn check_both_ways(&self) -> Result<Due, String> {
        let room = self.stored.frontier().1.min(MAX_POINTS);
        let due = self.check(&mut calls(End::Upper), MAX_POINTS)?;
        self.exchanged().check(&mut calls(End::Lower), room)?;
        Ok(due)
    }
}

/// For each variable the number of its part; tables connect the variables of a part.
fn parts(problem: &Problem) -> Vec<usize> {
    let labels = components(problem);
    let mut least = labels.clone();
    least.sort();
    least.dedup();
    let number = |label: &usize| least.binary_search(label).expect("the label of a part");
    labels.iter().map(number).collect()
}

/// The parts in turn on one side and the other.
fn in_turn(problem: &Problem) -> Vec<u8> {
    let parts = parts(problem);
    parts.iter().map(|part| (part % 2) as u8).collect()
}

/// The first part apart from the others.
fn first_apart(problem: &Problem) -> Vec<u8> {
    let parts = parts(problem);
    parts.iter().map(|&part| u8::from(part > 0)).collect()
}

/// Both sides have variables, so that no half is empty.
#[test]
fn harder_problems_cut_between_their_parts() {
    let mut problems = quick_stress();
    problems.retain(|stored| in_turn(&stored.problem).contains(&1));
    let cut = |stored: &Stored| Cut::new(stored, in_turn(&stored.problem)).check_both_ways();
    let dues = tally(&check_each(&problems, cut));
    assert_eq!(dues, [(Due::Listed, 26), (Due::HalfAbove64, 18)].into());
}

#[test]
fn the_first_part_apart_from_the_others() {
    let mut problems = quick_stress();
    problems.retain(|stored| stored.name.starts_with("decomp_"));
    let cut = |stored: &Stored| Cut::new(stored, first_apart(&stored.problem)).check_both_ways();
    let dues = tally(&check_each(&problems, cut));
    assert_eq!(dues, [(Due::Listed, 8), (Due::HalfAbove64, 4)].into());
}

/// Tables connect all variables of each of the night's problems, so that it can only be cut with all
/// of them on one side.
#[test]
fn the_night_with_an_empty_half() {
    let cut = |stored: &Stored| {
        assert_eq!(in_turn(&stored.problem), first_apart(&stored.problem));
        Cut::new(stored, in_turn(&stored.problem)).check_both_ways()
    };
    let dues = tally(&check_each(&nightly(), cut));
    assert_eq!(dues, [(Due::Listed, 303), (Due::HalfAbove64, 77)].into());
}

/// Checks the point records: those of the points, with zeros in their unused fields, and the junk in
/// those past the count, which are always some.
fn check_points(calls: &mut Guarded, stored: &Stored) -> Verdict {
    let (list, size) = stored.frontier();
    let mut rng = Rng::new(2);
    let before = junk_points(&mut rng, MAX_POINTS + 6);
    let work_before = vec![rng.bits() as u32 | 1; LEAST_WORK];
    let (mut points, mut work) = (before.clone(), work_before.clone());
    let answer = calls.points(&stored.bytes, &mut points, &mut work);
    calls.take_fault().map_or(Ok(()), Err)?;
    let known = Known {
        problem: &stored.problem,
        list: &list,
        size,
    };
    known.check_points(&before, &points, answer)?;
    check_work(&work_before, &work, answer)
}

#[test]
fn point_records_of_the_night() {
    let mut calls = calls(End::Upper);
    check_each(&nightly(), |stored| check_points(&mut calls, stored));
}

#[test]
fn point_records_of_harder_problems() {
    let mut calls = calls(End::Lower);
    check_each(&quick_stress(), |stored| check_points(&mut calls, stored));
}
