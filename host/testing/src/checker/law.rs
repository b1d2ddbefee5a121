//! The laws, each asked of one random problem and of a call that is handed in, so that a faulty
//! call can be handed in too.

use crate::brute::{bound_prefix, list_points, solve_cut};
use crate::owned::{cut_by, frontier_of, listed, Listed};
use crate::point_records::{junk_point, junk_points};
use crate::random::random_choice;
use crate::reading::read_problem;
use chooser::junk::junk;
use frontier::lent::{Answer, Buffers, Halves, Least, PointRecord};
use frontier::limits::{LEAST_WORK, MAX_POINTS};
use frontier::{Problem, Refusal, Table};

use super::case::Case;
use super::flat::Known;
use super::{all_choices, check_bounds, check_frontier, consistent_choices, ensure};
use super::{frontier_size, is_valid, record_starts, Verdict};

/// A flat call, as `solve_problem` is.
pub type Solver<'a> = &'a dyn Fn(&[u8], &mut [u32], &mut [u8], &mut [u32]) -> Answer;

/// A cut call, as `solve_cut` is.
pub type Cutter<'a> = &'a dyn Fn(&[u8], &[u8], &mut [u32], &mut [u8], &mut [u32]) -> Halves;

/// A call that writes point records, as `list_points` is.
pub type Lister<'a> = &'a dyn Fn(&[u8], &mut [PointRecord], &mut [u32]) -> Answer;

/// A bound call, as `bound_prefix` is.
pub type Bounder<'a> = &'a dyn Fn(&[u8], &[u8]) -> Least;

/// Buffers of random lengths: mostly a little below or above what `size` points need.
fn random_buffers(case: &mut Case, size: usize) -> Buffers {
    let (p, n) = (case.problem.objectives(), case.problem.variables());
    let most = size.min(MAX_POINTS) + 2;
    let costs = case.rng.below(most * p + 1);
    let choices = case.rng.below(most * n + 1);
    let work = case
        .rng
        .pick(&[LEAST_WORK - 1, LEAST_WORK, LEAST_WORK, LEAST_WORK + 37]);
    junk(&mut case.rng, costs, choices, work)
}

/// Buffers for exactly `size` points, or for 64.
fn exact_buffers(case: &mut Case, size: usize) -> Buffers {
    let room = size.min(MAX_POINTS);
    let (p, n) = (case.problem.objectives(), case.problem.variables());
    junk(&mut case.rng, room * p, room * n, LEAST_WORK)
}

/// The flat call lists the frontier, and determines every element of its buffers.
pub fn flat_law(case: &mut Case, solver: Solver) -> Verdict {
    let consistent = consistent_choices(&case.problem);
    let size = frontier_size(&consistent);
    let mut lent = exact_buffers(case, size);
    let answer = lent.lend(solver, &case.bytes);
    let list = listed(&lent, &case.bytes, answer).unwrap_or_default();
    if size <= MAX_POINTS {
        check_frontier(&consistent, &list)?;
    }
    determined_law(case, solver, &list, size)?;
    check_lent(case, solver, &list, size, Fit::Near)
}

/// The flat call answers as the brute force does, and so leaves every element of its buffers.
pub fn agreement_law(case: &mut Case, solver: Solver) -> Verdict {
    let (list, size) = listed_by_brute(case);
    determined_law(case, solver, &list, size)
}

/// What the brute force lists, and its length; 65 stands for every frontier above 64 points.
fn listed_by_brute(case: &Case) -> (Vec<Listed>, usize) {
    let listed = frontier_of(&case.bytes);
    let size = listed.as_ref().map_or(MAX_POINTS + 1, Vec::len);
    (listed.unwrap_or_default(), size)
}

/// How long the lent buffers are: as long as the points need, or a little below or above.
#[derive(Clone, Copy)]
enum Fit {
    Exact,
    Near,
}

/// The answer and every element of the buffers are determined by the list and its size.
fn determined_law(case: &mut Case, solver: Solver, list: &[Listed], size: usize) -> Verdict {
    check_lent(case, solver, list, size, Fit::Exact)?;
    check_lent(case, solver, list, size, Fit::Near)
}

/// Lends buffers with junk to a flat call, and checks its answer and what it leaves.
fn check_lent(case: &mut Case, solver: Solver, list: &[Listed], size: usize, fit: Fit) -> Verdict {
    let before = match fit {
        Fit::Exact => exact_buffers(case, size),
        Fit::Near => random_buffers(case, size),
    };
    let mut lent = before.clone();
    let answer = lent.lend(solver, &case.bytes);
    let known = Known {
        problem: &case.problem,
        list,
        size,
    };
    known.check_flat(&before, &lent, answer)
}

/// The point records agree with the flat form.
pub fn points_law(case: &mut Case, lister: Lister) -> Verdict {
    let (list, size) = listed_by_brute(case);
    let length = case.rng.below(size + 3);
    for length in [length, size, MAX_POINTS + 9] {
        let before = junk_points(&mut case.rng, length);
        let mut points = before.clone();
        let mut work = vec![case.seed as u32 | 1; LEAST_WORK];
        let answer = lister(&case.bytes, &mut points, &mut work);
        let known = Known {
            problem: &case.problem,
            list: &list,
            size,
        };
        known.check_points(&before, &points, answer)?;
        ensure(work.iter().all(|&x| x == 0), || "work of points".into())?;
    }
    Ok(())
}

/// The refusal that the cut rules ask for, from the prose of 13 and 14.
pub fn sides_refusal(problem: &Problem, sides: &[u8]) -> Option<Refusal> {
    if sides.len() != problem.variables() || sides.iter().any(|&side| side > 1) {
        return Some(Refusal::Sides);
    }
    let has = |table: &Table, side: u8| table.scope.iter().any(|&v| sides[usize::from(v)] == side);
    let linked = |table: &Table| has(table, 0) && has(table, 1);
    let first = problem.tables.iter().position(linked)?;
    let place = record_starts(problem)[1 + problem.variables() + first] as u32;
    Some(Refusal::Linked(place))
}

/// A half as a problem of its own, renumbered. A variable of one value and no cost stands in
/// for no variables.
pub fn half_problem(problem: &Problem, sides: &[u8], side: u8) -> Problem {
    let members: Vec<u8> = (0..sides.len() as u8)
        .filter(|&v| sides[usize::from(v)] == side)
        .collect();
    let mut half = Problem {
        ceilings: problem.ceilings.clone(),
        domains: members
            .iter()
            .map(|&v| problem.domains[usize::from(v)])
            .collect(),
        tables: Vec::new(),
    };
    for table in &problem.tables {
        let owner = table.scope.first().map_or(0, |&v| sides[usize::from(v)]);
        if owner == side {
            let renumbered = |v: &u8| members.binary_search(v).expect("own variable") as u8;
            let scope: Vec<u8> = table.scope.iter().map(renumbered).collect();
            half.tables
                .push(Table::new(table.objective, &scope, &table.costs));
        }
    }
    if members.is_empty() {
        half.domains.push(1);
    }
    half
}

/// What a cut must answer where it is not refused: the whole problem's list, and the sizes of
/// the halves' frontiers.
fn expected_cut(problem: &Problem, sides: &[u8]) -> (Vec<Listed>, usize, [u32; 2]) {
    let sizes = [0, 1].map(|side| {
        let half = half_problem(problem, sides, side);
        frontier_size(&consistent_choices(&half))
    });
    let list = frontier_of(&problem.encode()).unwrap_or_default();
    let whole = frontier_size(&consistent_choices(problem));
    // A half above 64 points refuses just as a frontier above 64 points does.
    let size = sizes
        .into_iter()
        .filter(|&s| s > MAX_POINTS)
        .fold(whole, usize::max);
    (list, size, sizes.map(|size| size as u32))
}

/// The cut call agrees with the whole problem, its refusals and sizes with the halves.
pub fn cut_law(case: &mut Case, sides: &[u8], cutter: Cutter) -> Verdict {
    let refused = sides_refusal(&case.problem, sides);
    let (list, size, sizes) = match refused {
        Some(_) => (Vec::new(), 0, [0, 0]),
        None => expected_cut(&case.problem, sides),
    };
    for exact in [true, false] {
        let before = match exact {
            true => exact_buffers(case, size),
            false => random_buffers(case, size),
        };
        let mut lent = before.clone();
        let cut = lent.lend_cut(cutter, &case.bytes, sides);
        let enough = before.work.len() >= LEAST_WORK;
        let known = Known {
            problem: &case.problem,
            list: &list,
            size,
        };
        let verdict = match refused.filter(|_| enough) {
            None => known.check_cut(sizes, &before, &lent, cut),
            Some(refusal) => ensure(cut == refusal.into() && lent == before, || {
                format!("{cut:?}, not {refusal:?}")
            }),
        };
        verdict.map_err(|complaint| format!("sides {sides:?}: {complaint}"))?;
    }
    Ok(())
}

/// Where a cut is not refused it lists what the flat call lists.
pub fn whole_law(case: &Case, sides: &[u8], cutter: Cutter, solver: Solver) -> Verdict {
    let Ok((list, _)) = cut_by(cutter, &case.bytes, sides) else {
        return Ok(());
    };
    let mut lent = Buffers::full();
    let answer = lent.lend(solver, &case.bytes);
    let whole = listed(&lent, &case.bytes, answer);
    ensure(whole.as_ref() == Ok(&list), || {
        format!("sides {sides:?} give {list:?}, the whole {whole:?}")
    })
}

/// The side list with its sides exchanged. A bad byte stays bad.
pub fn exchanged(sides: &[u8]) -> Vec<u8> {
    let exchange = |&side: &u8| if side > 1 { side } else { 1 - side };
    sides.iter().map(exchange).collect()
}

/// Exchanging the sides keeps 13 and 14, and every point where neither call is refused.
pub fn exchange_law(case: &Case, sides: &[u8], cutter: Cutter) -> Verdict {
    let cut = |sides: &[u8]| cut_by(cutter, &case.bytes, sides);
    let (one, other) = (cut(sides), cut(&exchanged(sides)));
    let kept = match (&one, &other) {
        (Ok((list, _)), Ok((exchanged_list, _))) => list == exchanged_list,
        (Err(refusal), Ok(_)) | (Ok(_), Err(refusal)) => *refusal == Refusal::Full,
        (Err(refusal), Err(exchanged_refusal)) => refusal == exchanged_refusal,
    };
    ensure(kept, || format!("{sides:?} {one:?}, exchanged {other:?}"))
}

/// The bounds of the prefixes of some choices are what the reference, section 9, says.
pub fn bound_law(case: &mut Case, bounder: Bounder) -> Verdict {
    let choices = all_choices(&case.problem);
    for _ in 0..6 {
        let choice = random_choice(&mut case.rng, &case.problem);
        let mut bounds = Vec::new();
        for length in 0..=choice.len() {
            let bound = bounder(&case.bytes, &choice[..length]);
            ensure((bound.number, bound.place) == (0, 0), || {
                format!("{bound:?}")
            })?;
            bounds.push(bound.least);
        }
        check_bounds(&case.problem, &choices, &choice, &bounds)?;
    }
    bad_prefix_law(case, bounder)
}

/// A prefix longer than n is refused, and so is one with a value not in its domain.
fn bad_prefix_law(case: &mut Case, bounder: Bounder) -> Verdict {
    let choice = random_choice(&mut case.rng, &case.problem);
    let place = case.rng.below(choice.len());
    let long = [choice.as_slice(), &[0]].concat();
    let outside = [&choice[..place], &[case.problem.domains[place]]].concat();
    for prefix in [long, outside] {
        let bound = bounder(&case.bytes, &prefix);
        let refused = bound == Refusal::Prefix.into();
        ensure(refused, || format!("{bound:?} of {prefix:?}"))?;
    }
    Ok(())
}

/// Any bytes are refused alike by all calls, with a number from 1 to 11 and nothing written, or
/// they are a valid problem, whose bytes the builder gives back.
pub fn bytes_law(case: &mut Case, solver: Solver) -> Verdict {
    let bytes = case.bytes.clone();
    let bound = bound_prefix(&bytes, &[]);
    let refusal = match read_problem(&bytes) {
        Ok(reading) => {
            let valid = is_valid(&reading.problem) && reading.problem.encode() == bytes;
            ensure(valid && bound.number == 0, || "read, but not valid".into())?;
            case.problem = reading.problem;
            return flat_law(case, solver);
        }
        Err(refusal) => refusal,
    };
    let before = junk(&mut case.rng, 9, 30, LEAST_WORK);
    let mut lent = before.clone();
    let Buffers {
        costs,
        choices,
        work,
    } = &mut lent;
    let mut points = vec![junk_point(&mut case.rng); 2];
    let answers = [
        solver(&bytes, costs, choices, work),
        solve_cut(&bytes, &[], costs, choices, work).answer,
        list_points(&bytes, &mut points, work),
    ];
    let alike = answers.iter().all(|&answer| answer == refusal.into());
    let placed = (refusal.place() as usize) <= bytes.len();
    let told = alike && placed && bound == refusal.into() && (1..=11).contains(&refusal.number());
    ensure(told, || format!("{answers:?} {bound:?} {refusal:?}"))?;
    ensure(lent == before && points[0] == points[1], || {
        "written".into()
    })
}
