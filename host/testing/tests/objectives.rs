//! One dominance test for every number of objectives, seen over the C interface: an objective in which
//! nothing costs anything, or one that is there twice, changes no point, choice or order, wherever it
//! stands, whichever form of the search answers, and by the cut.

use std::fmt::Debug;

use frontier::lent::{solve_cut, solve_problem};
use frontier::limits::MAX_POINTS;
use frontier::measure::solve_by_passes;
use frontier::{Problem, Refusal, Table};
use testing::checker::case::{ask, Case};
use testing::checker::{ensure, is_valid, Verdict};
use testing::owned::{cut_by, frontier_by, Listed};
use testing::random::uncrossed_sides;
use testing::stored::nightly;

/// How many random problems get one more objective.
const CASES: u64 = 5_000;

/// Of the night's problems those with at most so many variables are asked. The plans have no use for
/// an objective that tells nothing, and larger problems take long with it.
const MOST_VARIABLES: usize = 18;

/// The problem with its first three objectives, or all if it has fewer.
fn narrowed(problem: &Problem) -> Problem {
    let mut narrow = problem.clone();
    narrow.ceilings.truncate(3);
    narrow.tables.retain(|table| table.objective < 3);
    narrow
}

/// The problem with one more objective, in this place, in which nothing costs anything.
fn with_free(problem: &Problem, place: usize) -> Problem {
    let mut wider = problem.clone();
    wider.ceilings.insert(place, 1);
    for table in &mut wider.tables {
        table.objective += u8::from(usize::from(table.objective) >= place);
    }
    wider
}

/// The problem with one of its objectives a second time, as the last.
fn with_copy(problem: &Problem, place: usize) -> Problem {
    let mut wider = problem.clone();
    wider.ceilings.push(problem.ceilings[place]);
    let last = problem.objectives() as u8;
    let own = |table: &&Table| usize::from(table.objective) == place;
    let copies = problem.tables.iter().filter(own);
    wider.tables.extend(copies.map(|table| Table {
        objective: last,
        ..table.clone()
    }));
    wider
}

/// An objective that is added.
#[derive(Clone, Copy, Debug)]
enum Added {
    /// In this place, and nothing costs anything in it.
    Free(usize),
    /// As the last, and it is the one in this place a second time.
    Copy(usize),
}

impl Added {
    /// Every place for a free objective, and every objective a second time.
    fn all(p: usize) -> Vec<Added> {
        let free = (0..=p).map(Added::Free);
        free.chain((0..p).map(Added::Copy)).collect()
    }

    fn wider(self, problem: &Problem) -> Problem {
        match self {
            Added::Free(place) => with_free(problem, place),
            Added::Copy(place) => with_copy(problem, place),
        }
    }

    /// The points with what they cost in the objective.
    fn points(self, mut list: Vec<Listed>) -> Vec<Listed> {
        for Listed { costs, .. } in &mut list {
            match self {
                Added::Free(place) => costs.insert(place, 0),
                Added::Copy(place) => costs.push(costs[place]),
            }
        }
        list
    }

    /// A call lists the same points with the objective, or refuses the problem as without it.
    fn check<T: Debug + PartialEq>(
        self,
        problem: &Problem,
        call: impl Fn(&[u8]) -> Result<(Vec<Listed>, T), Refusal>,
    ) -> Verdict {
        let due = call(&problem.encode()).map(|(list, sizes)| (self.points(list), sizes));
        let given = call(&self.wider(problem).encode());
        ensure(given == due, || format!("{self:?}: {given:?} for {due:?}"))
    }
}

/// The plain call by both forms of the search, and the cut, with every objective that can be added.
fn check_added(case: &mut Case) -> Verdict {
    let problem = narrowed(&case.problem);
    let sides = uncrossed_sides(&mut case.rng, &problem);
    for added in Added::all(problem.objectives()) {
        let wider = added.wider(&problem);
        ensure(is_valid(&wider), || format!("{wider:?} is not valid"))?;
        for form in [solve_problem, solve_by_passes] {
            added.check(&problem, |bytes| Ok((frontier_by(form, bytes)?, ())))?;
        }
        added.check(&problem, |bytes| cut_by(solve_cut, bytes, &sides))?;
    }
    Ok(())
}

#[test]
fn an_objective_is_added() {
    let problem = Problem {
        ceilings: vec![9, 8],
        domains: vec![2],
        tables: vec![Table::new(0, &[0], &[1, 2]), Table::new(1, &[0], &[4, 3])],
    };
    let free = with_free(&problem, 1);
    assert_eq!(free.ceilings, [9, 1, 8]);
    assert_eq!(free.tables[1], Table::new(2, &[0], &[4, 3]));
    let copy = with_copy(&problem, 0);
    assert_eq!(copy.ceilings, [9, 8, 9]);
    assert_eq!(copy.tables[2], Table::new(2, &[0], &[1, 2]));
    assert_eq!(
        narrowed(&with_free(&with_free(&problem, 2), 3)),
        with_free(&problem, 2)
    );
    assert_eq!(Added::all(2).len(), 5);
}

#[test]
fn another_objective_changes_no_list() {
    ask(CASES, check_added);
}

/// With an objective behind the others in which nothing costs anything they have the expected points.
#[test]
fn problems_of_the_night_have_their_points_with_one_objective_more() {
    let mut asked = 0;
    for stored in nightly() {
        let place = stored.problem.objectives();
        if place == 4 || stored.problem.variables() > MOST_VARIABLES {
            continue;
        }
        let added = Added::Free(place);
        let given = frontier_by(solve_problem, &added.wider(&stored.problem).encode());
        let (list, size) = stored.frontier();
        let due = match size > MAX_POINTS {
            true => Err(Refusal::Full),
            false => Ok(added.points(list)),
        };
        assert_eq!(given, due, "{}", stored.name);
        asked += 1;
    }
    assert_eq!(asked, 219);
}
