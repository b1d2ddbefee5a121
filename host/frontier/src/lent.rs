//! The calls with lent buffers, for those who bring their own: a safe wrapper for each call that
//! `include/frontier.h` declares, with the same meaning. Numbers of refusal are those of
//! [`refusal`](crate::refusal), 0 is none.

use crate::ffi::{frontier_batch, frontier_solve_cached};
use crate::ffi::{frontier_bound, frontier_cut, frontier_points, frontier_solve};
use crate::ffi::{frontier_canonical, frontier_from_text, frontier_to_text, Convert, Solve};
use crate::limits::{MAX_OBJECTIVES, MAX_VARIABLES};
use crate::refusal::Refusal;

pub use crate::batch::{frame, BatchBuffers};
pub use crate::buffers::{BatchCall, Buffers, CachedCall, CutCall, SolveCall};

/// What a call answers: number 0 and the count of points (of bytes, from the calls that write a form of the
/// problem, and of problems, from the call for a batch), or a refusal with count 0.
#[derive(Clone, Copy, Debug, PartialEq, Eq)]
pub struct Answer {
    /// The number of refusal, or 0.
    pub number: u8,
    /// The place of the refusal; 0 where it has none.
    pub place: u32,
    /// How many points are listed, how many bytes of a text, a problem or a canonical form are written, or how
    /// many problems a batch has.
    pub count: u32,
}

impl Answer {
    /// An accepted problem with this many points, an accepted form of this many bytes, or an accepted batch of
    /// this many problems.
    pub fn accepted(count: usize) -> Answer {
        Answer {
            number: 0,
            place: 0,
            count: count as u32,
        }
    }
}

impl From<Refusal> for Answer {
    fn from(refusal: Refusal) -> Answer {
        Answer {
            number: refusal.number(),
            place: refusal.place(),
            count: 0,
        }
    }
}

/// A point as [`list_points`] writes it, with the layout of C.
#[repr(C)]
#[derive(Clone, Copy, Debug, PartialEq, Eq)]
pub struct PointRecord {
    /// The cost in each objective; behind the last one 0.
    pub costs: [u32; MAX_OBJECTIVES],
    /// The value of each variable; behind the last one 0.
    pub choice: [u8; MAX_VARIABLES],
}

/// What the cut call answers: also the two halves' frontier sizes, 0 after a refusal.
#[derive(Clone, Copy, Debug, PartialEq, Eq)]
pub struct Halves {
    /// What the plain call would answer.
    pub answer: Answer,
    /// How many points the frontier of side 0 has.
    pub first: u32,
    /// How many points the frontier of side 1 has.
    pub second: u32,
}

impl Halves {
    /// The answer that the number of refusal and the numbers that a cut call writes are: place,
    /// count, and both half sizes.
    pub fn from_numbers(number: u8, [place, count, first, second]: [u32; 4]) -> Halves {
        let answer = Answer {
            number,
            place,
            count,
        };
        Halves {
            answer,
            first,
            second,
        }
    }
}

impl From<Refusal> for Halves {
    fn from(refusal: Refusal) -> Halves {
        Halves {
            answer: refusal.into(),
            first: 0,
            second: 0,
        }
    }
}

/// What the bound call answers: number 0 and the bound in each objective. Unused numbers are 0,
/// and after a refusal all are.
#[derive(Clone, Copy, Debug, PartialEq, Eq)]
pub struct Least {
    /// The number of refusal, or 0.
    pub number: u8,
    /// The place of the refusal; 0 where it has none.
    pub place: u32,
    /// The bound in each objective.
    pub least: [u64; MAX_OBJECTIVES],
}

impl From<Refusal> for Least {
    fn from(refusal: Refusal) -> Least {
        Least {
            number: refusal.number(),
            place: refusal.place(),
            least: [0; MAX_OBJECTIVES],
        }
    }
}

/// What the canonical call answers: also the key of the form, 0 after a refusal.
#[derive(Clone, Copy, Debug, PartialEq, Eq)]
pub struct Keyed {
    /// Number, place, and how many bytes of the form are written.
    pub answer: Answer,
    /// The key of the form: 64-bit FNV-1a over its bytes.
    pub key: u64,
}

impl From<Refusal> for Keyed {
    fn from(refusal: Refusal) -> Keyed {
        Keyed {
            answer: refusal.into(),
            key: 0,
        }
    }
}

/// What the cached call answers: also whether the store held it.
#[derive(Clone, Copy, Debug, PartialEq, Eq)]
pub struct CachedAnswer {
    /// What the plain call would answer.
    pub answer: Answer,
    /// 1 if the store held the problem, also with [`Refusal::Full`]; else 0.
    pub hit: u8,
}

impl From<Refusal> for CachedAnswer {
    fn from(refusal: Refusal) -> CachedAnswer {
        CachedAnswer {
            answer: refusal.into(),
            hit: 0,
        }
    }
}

/// Lends the buffers to one of the plain calls.
fn lend(
    solve: Solve,
    problem: &[u8],
    costs: &mut [u32],
    choices: &mut [u8],
    work: &mut [u32],
    place: &mut u32,
    count: &mut u32,
) -> u8 {
    // SAFETY: each pointer comes from a reference, so it is aligned, never null (not even for an
    // empty slice) and valid for the length beside it; the five that are written are exclusive,
    // so they overlap neither each other nor the problem. The call keeps no pointer after it
    // returns.
    unsafe {
        solve(
            problem.as_ptr(),
            problem.len(),
            costs.as_mut_ptr(),
            costs.len(),
            choices.as_mut_ptr(),
            choices.len(),
            work.as_mut_ptr(),
            work.len(),
            place,
            count,
        )
    }
}

/// What one of the plain calls answers.
pub(crate) fn answer_of(
    solve: Solve,
    problem: &[u8],
    costs: &mut [u32],
    choices: &mut [u8],
    work: &mut [u32],
) -> Answer {
    let (mut place, mut count) = (0, 0);
    let number = lend(solve, problem, costs, choices, work, &mut place, &mut count);
    Answer {
        number,
        place,
        count,
    }
}

/// The plain call as C has it: the number of refusal is the result, and `place` and `count` are
/// written whatever they held. Callers that only want the answer use [`solve_problem`].
pub fn write_solve(
    problem: &[u8],
    costs: &mut [u32],
    choices: &mut [u8],
    work: &mut [u32],
    place: &mut u32,
    count: &mut u32,
) -> u8 {
    lend(frontier_solve, problem, costs, choices, work, place, count)
}

/// Lists the frontier into the flat buffers.
pub fn solve_problem(
    problem: &[u8],
    costs: &mut [u32],
    choices: &mut [u8],
    work: &mut [u32],
) -> Answer {
    answer_of(frontier_solve, problem, costs, choices, work)
}

/// Where the cut call writes its numbers.
#[derive(Debug)]
pub struct CutNumbers<'a> {
    /// The place of the refusal.
    pub place: &'a mut u32,
    /// How many points are listed.
    pub count: &'a mut u32,
    /// How many points the frontier of side 0 has.
    pub first: &'a mut u32,
    /// How many points the frontier of side 1 has.
    pub second: &'a mut u32,
}

/// The cut call as C has it: the number of refusal is the result, and the other numbers are written
/// whatever they held. Callers that only want the answer use [`solve_cut`].
pub fn write_cut(
    problem: &[u8],
    sides: &[u8],
    costs: &mut [u32],
    choices: &mut [u8],
    work: &mut [u32],
    numbers: CutNumbers,
) -> u8 {
    // SAFETY: as in `lend`; the side list is read only, as the problem is, and the seven
    // that are written are exclusive.
    unsafe {
        frontier_cut(
            problem.as_ptr(),
            problem.len(),
            sides.as_ptr(),
            sides.len(),
            costs.as_mut_ptr(),
            costs.len(),
            choices.as_mut_ptr(),
            choices.len(),
            work.as_mut_ptr(),
            work.len(),
            numbers.place,
            numbers.count,
            numbers.first,
            numbers.second,
        )
    }
}

/// Lists the frontier of a problem without linked records by way of its two halves.
pub fn solve_cut(
    problem: &[u8],
    sides: &[u8],
    costs: &mut [u32],
    choices: &mut [u8],
    work: &mut [u32],
) -> Halves {
    let (mut place, mut count, mut first, mut second) = (0, 0, 0, 0);
    let numbers = CutNumbers {
        place: &mut place,
        count: &mut count,
        first: &mut first,
        second: &mut second,
    };
    let number = write_cut(problem, sides, costs, choices, work, numbers);
    Halves::from_numbers(number, [place, count, first, second])
}

/// The bound call as C has it: the number of refusal is the result, and `least` and `place` are
/// written whatever they held. Callers that only want the answer use [`bound_prefix`].
pub fn write_bound(
    problem: &[u8],
    prefix: &[u8],
    least: &mut [u64; MAX_OBJECTIVES],
    place: &mut u32,
) -> u8 {
    // SAFETY: each pointer comes from a reference, so it is aligned, never null (not even for an
    // empty slice) and valid for the length beside it; the two that are written are exclusive.
    // The call keeps no pointer after it returns.
    unsafe {
        frontier_bound(
            problem.as_ptr(),
            problem.len(),
            prefix.as_ptr(),
            prefix.len(),
            least,
            place,
        )
    }
}

/// Bounds the cost of every completion of a prefix: values for variables 0, 1, and so on.
pub fn bound_prefix(problem: &[u8], prefix: &[u8]) -> Least {
    let (mut least, mut place) = ([0; MAX_OBJECTIVES], 0);
    let number = write_bound(problem, prefix, &mut least, &mut place);
    Least {
        number,
        place,
        least,
    }
}

/// The call for point records as C has it: the number of refusal is the result, and `place` and
/// `count` are written whatever they held. Callers that only want the answer use [`list_points`].
pub fn write_points(
    problem: &[u8],
    points: &mut [PointRecord],
    work: &mut [u32],
    place: &mut u32,
    count: &mut u32,
) -> u8 {
    // SAFETY: as in `lend`, with one list in place of two buffers. `PointRecord` has C's layout,
    // and every content of its fields is valid.
    unsafe {
        frontier_points(
            problem.as_ptr(),
            problem.len(),
            points.as_mut_ptr(),
            points.len(),
            work.as_mut_ptr(),
            work.len(),
            place,
            count,
        )
    }
}

/// Lists the frontier into point records.
pub fn list_points(problem: &[u8], points: &mut [PointRecord], work: &mut [u32]) -> Answer {
    let (mut place, mut count) = (0, 0);
    let number = write_points(problem, points, work, &mut place, &mut count);
    Answer {
        number,
        place,
        count,
    }
}

/// Lends a form of a problem to a call that makes another of it, and the buffer for that.
fn convert(call: Convert, form: &[u8], made: &mut [u8], place: &mut u32, count: &mut u32) -> u8 {
    // SAFETY: as in `write_bound`; the three that are written are exclusive.
    unsafe {
        call(
            form.as_ptr(),
            form.len(),
            made.as_mut_ptr(),
            made.len(),
            place,
            count,
        )
    }
}

/// What such a call answers.
fn converted(call: Convert, form: &[u8], made: &mut [u8]) -> Answer {
    let (mut place, mut count) = (0, 0);
    let number = convert(call, form, made, &mut place, &mut count);
    Answer {
        number,
        place,
        count,
    }
}

/// The call that writes WCSP text as C has it: the number of refusal is the result, and `place` and
/// `count` are written whatever they held. Callers that only want the answer use [`to_text`].
pub fn write_text(problem: &[u8], text: &mut [u8], place: &mut u32, count: &mut u32) -> u8 {
    convert(frontier_to_text, problem, text, place, count)
}

/// Writes a problem with one objective as WCSP text. [`TEXT_LEN`](crate::limits::TEXT_LEN) bytes do
/// for every problem.
pub fn to_text(problem: &[u8], text: &mut [u8]) -> Answer {
    converted(frontier_to_text, problem, text)
}

/// The call that reads WCSP text as C has it: the number of refusal is the result, and `place` and
/// `count` are written whatever they held. Callers that only want the answer use [`from_text`].
pub fn read_text(text: &[u8], problem: &mut [u8], place: &mut u32, count: &mut u32) -> u8 {
    convert(frontier_from_text, text, problem, place, count)
}

/// Writes the problem that a WCSP text says. [`MAX_BYTES`](crate::limits::MAX_BYTES) bytes do for every
/// text.
pub fn from_text(text: &[u8], problem: &mut [u8]) -> Answer {
    converted(frontier_from_text, text, problem)
}

/// The canonical call as C has it: the number of refusal is the result, and `place`, `count` and `key` are
/// written whatever they held. Callers that only want the answer use [`canonical`].
pub fn write_canonical(
    problem: &[u8],
    form: &mut [u8],
    place: &mut u32,
    count: &mut u32,
    key: &mut u64,
) -> u8 {
    // SAFETY: as in `write_bound`; the four that are written are exclusive.
    unsafe {
        frontier_canonical(
            problem.as_ptr(),
            problem.len(),
            form.as_mut_ptr(),
            form.len(),
            place,
            count,
            key,
        )
    }
}

/// Writes the canonical form of a problem, and tells its key. As many bytes as the problem has do.
pub fn canonical(problem: &[u8], form: &mut [u8]) -> Keyed {
    let (mut place, mut count, mut key) = (0, 0, 0);
    let number = write_canonical(problem, form, &mut place, &mut count, &mut key);
    let answer = Answer {
        number,
        place,
        count,
    };
    Keyed { answer, key }
}

/// Where the cached call writes its numbers.
#[derive(Debug)]
pub struct CachedNumbers<'a> {
    /// The place of the refusal.
    pub place: &'a mut u32,
    /// How many points are listed.
    pub count: &'a mut u32,
    /// Whether the store held the problem.
    pub hit: &'a mut u8,
}

/// The cached call as C has it: the number of refusal is the result, and the other numbers are written
/// whatever they held. Callers that only want the answer use [`solve_cached`].
pub fn write_cached(
    problem: &[u8],
    costs: &mut [u32],
    choices: &mut [u8],
    work: &mut [u32],
    store: &mut [u8],
    numbers: CachedNumbers,
) -> u8 {
    // SAFETY: as in `lend`, with the store as a fourth buffer; the seven that are written are exclusive. The
    // call may be lent any bytes as a store.
    unsafe {
        frontier_solve_cached(
            problem.as_ptr(),
            problem.len(),
            costs.as_mut_ptr(),
            costs.len(),
            choices.as_mut_ptr(),
            choices.len(),
            work.as_mut_ptr(),
            work.len(),
            store.as_mut_ptr(),
            store.len(),
            numbers.place,
            numbers.count,
            numbers.hit,
        )
    }
}

/// Lists the frontier into the flat buffers, from the store if that holds it, and else into the store too. A
/// store begins with zeros alone, and is then lent to this call alone and at one length.
pub fn solve_cached(
    problem: &[u8],
    costs: &mut [u32],
    choices: &mut [u8],
    work: &mut [u32],
    store: &mut [u8],
) -> CachedAnswer {
    let (mut place, mut count, mut hit) = (0, 0, 0);
    let numbers = CachedNumbers {
        place: &mut place,
        count: &mut count,
        hit: &mut hit,
    };
    let number = write_cached(problem, costs, choices, work, store, numbers);
    let answer = Answer {
        number,
        place,
        count,
    };
    CachedAnswer { answer, hit }
}

/// The batch call as C has it: the number of refusal is the result, and `place` and `count` are written
/// whatever they held. Callers that only want the answer use [`solve_batch`].
pub fn write_batch(
    batch: &[u8],
    costs: &mut [u32],
    choices: &mut [u8],
    results: &mut [u32],
    work: &mut [u32],
    place: &mut u32,
    count: &mut u32,
) -> u8 {
    // SAFETY: as in `lend`, with the result list as a fourth buffer; the six that are written are exclusive.
    unsafe {
        frontier_batch(
            batch.as_ptr(),
            batch.len(),
            costs.as_mut_ptr(),
            costs.len(),
            choices.as_mut_ptr(),
            choices.len(),
            results.as_mut_ptr(),
            results.len(),
            work.as_mut_ptr(),
            work.len(),
            place,
            count,
        )
    }
}

/// Lists the frontiers of the problems of a batch, as [`frame`] makes it, each into its areas of the buffers, as
/// [`BatchBuffers`] has them. The result list takes number, place and count of each problem; the answer is of the
/// batch as a whole, and counts its problems.
pub fn solve_batch(
    batch: &[u8],
    costs: &mut [u32],
    choices: &mut [u8],
    results: &mut [u32],
    work: &mut [u32],
) -> Answer {
    let (mut place, mut count) = (0, 0);
    let number = write_batch(batch, costs, choices, results, work, &mut place, &mut count);
    Answer {
        number,
        place,
        count,
    }
}
