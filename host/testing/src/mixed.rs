//! Mixed cases of the calls (valid, damaged and boundary problems, with good and bad prefixes of
//! every length, with good and bad side lists, and with buffers long enough or not), and the
//! comparison with the brute force.

use std::fmt::Debug;
use std::ops::Range;

use crate::bound::bound_prefix;
use crate::brute::{solve_cut, solve_problem};
use crate::examples::brimful;
use crate::random::{bad_sides, damage, random_choice, random_problem, random_sides};
use crate::random::{uncrossed_sides, Shape};
use crate::reading::read_problem;
use chooser::hex::to_hex;
use chooser::junk::junk;
use chooser::junk::Rng;
use frontier::lent::{Answer, Buffers, Halves, Least};
use frontier::limits::{
    LEAST_WORK, MAX_ARITY, MAX_DOMAIN, MAX_OBJECTIVES, MAX_TABLES, MAX_VARIABLES,
};
use frontier::{Problem, Table};

/// A problem's bytes, damaged or not, the prefixes that are asked about with them, the buffers
/// that are lent, and the side list for a cut.
pub struct Mixed {
    pub seed: u64,
    pub bytes: Vec<u8>,
    pub prefixes: Vec<Vec<u8>>,
    pub lent: Buffers,
    pub sides: Vec<u8>,
}

impl Mixed {
    /// The case of a seed: always the same one.
    pub fn new(seed: u64) -> Mixed {
        let mut rng = Rng::new(seed);
        let problem = mixed_problem(&mut rng);
        let mut bytes = problem.encode();
        if rng.once_in(2) {
            for _ in 0..=rng.below(3) {
                damage(&mut rng, &mut bytes);
            }
        }
        let prefixes = mixed_prefixes(&mut rng, &problem);
        let lent = mixed_buffers(&mut rng, &bytes);
        let sides = mixed_sides(&mut rng, &bytes);
        Mixed {
            seed,
            bytes,
            prefixes,
            lent,
            sides,
        }
    }

    /// Compares a flat call with the brute force: the answer and all that is left in the buffers.
    /// A difference is told with the seed and the bytes.
    pub fn compare_solve(
        &self,
        call: impl Fn(&[u8], &mut [u32], &mut [u8], &mut [u32]) -> Answer,
    ) -> Result<(), String> {
        let compared = compare_solve(&self.bytes, &self.lent, call);
        compared.map_err(|difference| format!("seed {}: {difference}", self.seed))
    }

    /// Compares a cut call with the brute force: the answer and all that is left in the buffers. A
    /// difference is told with the seed, the side list and the bytes.
    pub fn compare_cut(
        &self,
        call: impl Fn(&[u8], &[u8], &mut [u32], &mut [u8], &mut [u32]) -> Halves,
    ) -> Result<(), String> {
        let compared = compare_cut(&self.bytes, &self.sides, &self.lent, call);
        compared.map_err(|difference| format!("seed {}: {difference}", self.seed))
    }

    /// Compares a bound call with the brute force, prefix by prefix. The first difference is told
    /// with the seed and the bytes.
    pub fn compare_bounds(&self, call: impl Fn(&[u8], &[u8]) -> Least) -> Result<(), String> {
        self.prefixes.iter().try_for_each(|prefix| {
            let compared = compare_bound(&self.bytes, prefix, &call);
            compared.map_err(|difference| format!("seed {}: {difference}", self.seed))
        })
    }
}

/// Compares the cases with these seeds, for tests: the first difference ends the test.
pub fn compare_seeds(seeds: Range<u64>, compare: impl Fn(&Mixed) -> Result<(), String>) {
    for seed in seeds {
        if let Err(difference) = compare(&Mixed::new(seed)) {
            panic!("{difference}");
        }
    }
}

/// Compares a flat call with the brute force on one problem, each lent a copy of the buffers. A
/// difference is told with the bytes in hex.
pub fn compare_solve(
    problem: &[u8],
    lent: &Buffers,
    call: impl Fn(&[u8], &mut [u32], &mut [u8], &mut [u32]) -> Answer,
) -> Result<(), String> {
    let (mut left, mut right) = (lent.clone(), lent.clone());
    let (answer, expected) = (left.lend(call, problem), right.lend(solve_problem, problem));
    compare_outcomes(problem, [answer, expected], [left, right])
}

/// Compares a cut call with the brute force on one problem and side list, each lent a copy of the
/// buffers. A difference is told with the side list, and the bytes in hex.
pub fn compare_cut(
    problem: &[u8],
    sides: &[u8],
    lent: &Buffers,
    call: impl Fn(&[u8], &[u8], &mut [u32], &mut [u8], &mut [u32]) -> Halves,
) -> Result<(), String> {
    let (mut left, mut right) = (lent.clone(), lent.clone());
    let answer = left.lend_cut(call, problem, sides);
    let expected = right.lend_cut(solve_cut, problem, sides);
    let compared = compare_outcomes(problem, [answer, expected], [left, right]);
    compared.map_err(|difference| format!("sides {sides:?}: {difference}"))
}

/// Compares what a call and the brute force, in this order, have answered and left in the buffers.
pub(crate) fn compare_outcomes<T: Debug + PartialEq>(
    problem: &[u8],
    [answer, expected]: [T; 2],
    [left, right]: [Buffers; 2],
) -> Result<(), String> {
    let lengths = [left.costs.len(), left.choices.len(), left.work.len()];
    let difference = if answer != expected {
        format!("the call answers {answer:?}, the brute force {expected:?}")
    } else if left.costs != right.costs {
        let (left, right) = (left.costs, right.costs);
        format!("the call leaves the costs {left:?}, the brute force {right:?}")
    } else if left.choices != right.choices {
        let (left, right) = (left.choices, right.choices);
        format!("the call leaves the choices {left:?}, the brute force {right:?}")
    } else if left.work != right.work {
        format!("after {answer:?} the call leaves other work memory than the brute force")
    } else {
        return Ok(());
    };
    let bytes = to_hex(problem);
    Err(format!("{difference}, lengths {lengths:?}, bytes {bytes}"))
}

/// Compares a bound call with the brute force on one problem and prefix. A difference is told with
/// the bytes in hex.
pub fn compare_bound(
    problem: &[u8],
    prefix: &[u8],
    call: impl Fn(&[u8], &[u8]) -> Least,
) -> Result<(), String> {
    let (answer, expected) = (call(problem, prefix), bound_prefix(problem, prefix));
    if answer == expected {
        return Ok(());
    }
    let bytes = to_hex(problem);
    Err(format!(
        "the call answers {answer:?}, the brute force {expected:?}, prefix {prefix:?}, bytes {bytes}"
    ))
}

/// A problem that is mostly small; the large ones are few, because the brute force is slow.
fn mixed_problem(rng: &mut Rng) -> Problem {
    match rng.below(400) {
        0 => brimful_or_beside(rng),
        1..=16 => random_problem(rng, &Shape::wide()),
        17..=60 => at_a_limit(rng),
        _ => random_problem(rng, &Shape::small()),
    }
}

/// A problem of 60,000 bytes, or one that goes over them by one table.
fn brimful_or_beside(rng: &mut Rng) -> Problem {
    let mut problem = brimful();
    if rng.once_in(3) {
        problem.tables.push(Table::new(0, &[], &[1]));
    }
    problem
}

/// A size one below a limit, at it or one above.
fn around(rng: &mut Rng, limit: usize) -> usize {
    limit - 1 + rng.below(3)
}

/// A random problem with one of its sizes or fields at a limit, or one beside it.
fn at_a_limit(rng: &mut Rng) -> Problem {
    let mut problem = random_problem(rng, &Shape::small());
    match rng.below(7) {
        0 => problem.domains.resize(around(rng, MAX_VARIABLES), 2),
        1 => problem.ceilings.resize(around(rng, MAX_OBJECTIVES), 9),
        2 => {
            let charge = Table::new(0, &[], &[rng.bits() as u32]);
            problem.tables.resize(around(rng, MAX_TABLES), charge);
        }
        // No table is over the new variable, so all others keep their sizes.
        3 => problem.domains.push(around(rng, MAX_DOMAIN) as u8),
        4 => {
            let objective = around(rng, problem.objectives()) as u8;
            problem.tables.push(Table::new(objective, &[], &[7]));
        }
        5 => {
            problem.domains.extend([2; MAX_ARITY + 1]);
            let scope: Vec<u8> = (0..around(rng, MAX_ARITY) as u8).collect();
            push_table(rng, &mut problem, scope);
        }
        _ => {
            let variable = around(rng, problem.variables()) as u8;
            push_table(rng, &mut problem, vec![variable]);
        }
    }
    problem
}

/// Adds a table over this scope. An unknown variable counts as one of one value.
fn push_table(rng: &mut Rng, problem: &mut Problem, scope: Vec<u8>) {
    let size = |v: &u8| usize::from(*problem.domains.get(usize::from(*v)).unwrap_or(&1));
    let entries: usize = scope.iter().map(size).product();
    let costs = (0..entries).map(|_| rng.bits() as u32).collect();
    problem.tables.push(Table {
        objective: 0,
        scope,
        costs,
    });
}

/// Prefixes of every length up to n + 2: of each length one within the domains and one with a
/// value outside of them, anywhere. Those above n are refused either way.
fn mixed_prefixes(rng: &mut Rng, problem: &Problem) -> Vec<Vec<u8>> {
    let mut prefixes = Vec::new();
    for length in 0..=problem.variables() + 2 {
        let mut prefix = prefix_of_length(rng, problem, length);
        prefixes.push(prefix.clone());
        if length > 0 {
            let place = rng.below(length);
            let size = problem.domains.get(place).copied().unwrap_or(1);
            prefix[place] = rng.pick(&[size, size.saturating_add(1), 128, 255]);
            prefixes.push(prefix);
        }
    }
    prefixes
}

/// The first values of a random choice, and zeros where it is too short.
fn prefix_of_length(rng: &mut Rng, problem: &Problem, length: usize) -> Vec<u8> {
    let mut prefix = random_choice(rng, problem);
    prefix.resize(length, 0);
    prefix
}

/// A problem with more complete choices than this is not searched.
const SEARCHED_CHOICES: u64 = 1_000;

/// Whether bytes are no problem, or one with so few choices that they can be gone through.
pub(crate) fn has_few_choices(bytes: &[u8]) -> bool {
    let read = read_problem(bytes);
    read.map_or(true, |reading| {
        reading.problem.choices() <= SEARCHED_CHOICES
    })
}

/// Buffers with junk for a problem's bytes, with room for no point, for some, or for more than are
/// ever listed. Where there are too many choices to go through, the work buffer is too short, so
/// that the call refuses before it searches.
fn mixed_buffers(rng: &mut Rng, bytes: &[u8]) -> Buffers {
    let read = read_problem(bytes).map(|reading| reading.problem);
    let (p, n, choices) = match read {
        Ok(problem) => (problem.objectives(), problem.variables(), problem.choices()),
        Err(_) => (MAX_OBJECTIVES, MAX_VARIABLES, 0),
    };
    let work = if choices > SEARCHED_CHOICES || rng.once_in(8) {
        rng.pick(&[0, 1, LEAST_WORK - 1])
    } else {
        rng.pick(&[LEAST_WORK, LEAST_WORK, LEAST_WORK + 1, LEAST_WORK + 500])
    };
    let room = rng.pick(&[0, 1, 2, 3, 4, 8, 20, 70]);
    let costs = room * p + rng.below(2 * p);
    let choices = room * n + rng.below(2 * n);
    junk(rng, costs, choices, work)
}

/// A side list for a problem's bytes, mostly one that no table crosses. Bytes that are no problem get
/// one of any length.
fn mixed_sides(rng: &mut Rng, bytes: &[u8]) -> Vec<u8> {
    let Ok(reading) = read_problem(bytes) else {
        let length = rng.below(MAX_VARIABLES + 2);
        return (0..length).map(|_| rng.byte_below(3)).collect();
    };
    match rng.below(8) {
        0 => bad_sides(rng, &reading.problem),
        1 => random_sides(rng, &reading.problem),
        _ => uncrossed_sides(rng, &reading.problem),
    }
}
