//! The exported calls of the static library, as `include/frontier.h` declares them.

use crate::lent::PointRecord;
use crate::limits::MAX_OBJECTIVES;

// The exported calls. No compiler checks these lines against the library, so they stand together:
// the test `header` compares them with the library's source.
extern "C" {
    pub fn frontier_version() -> u32;

    pub fn frontier_solve(
        problem: *const u8,
        problem_len: usize,
        costs: *mut u32,
        costs_len: usize,
        choices: *mut u8,
        choices_len: usize,
        work: *mut u32,
        work_len: usize,
        place: *mut u32,
        count: *mut u32,
    ) -> u8;

    pub fn frontier_solve_by_passes(
        problem: *const u8,
        problem_len: usize,
        costs: *mut u32,
        costs_len: usize,
        choices: *mut u8,
        choices_len: usize,
        work: *mut u32,
        work_len: usize,
        place: *mut u32,
        count: *mut u32,
    ) -> u8;

    pub fn frontier_solve_measured(
        problem: *const u8,
        problem_len: usize,
        costs: *mut u32,
        costs_len: usize,
        choices: *mut u8,
        choices_len: usize,
        work: *mut u32,
        work_len: usize,
        place: *mut u32,
        count: *mut u32,
        measures: *mut [u64; 8],
    ) -> u8;

    pub fn frontier_cut(
        problem: *const u8,
        problem_len: usize,
        sides: *const u8,
        sides_len: usize,
        costs: *mut u32,
        costs_len: usize,
        choices: *mut u8,
        choices_len: usize,
        work: *mut u32,
        work_len: usize,
        place: *mut u32,
        count: *mut u32,
        first: *mut u32,
        second: *mut u32,
    ) -> u8;

    pub fn frontier_bound(
        problem: *const u8,
        problem_len: usize,
        prefix: *const u8,
        prefix_len: usize,
        least: *mut [u64; MAX_OBJECTIVES],
        place: *mut u32,
    ) -> u8;

    pub fn frontier_points(
        problem: *const u8,
        problem_len: usize,
        points: *mut PointRecord,
        points_len: usize,
        work: *mut u32,
        work_len: usize,
        place: *mut u32,
        count: *mut u32,
    ) -> u8;

    pub fn frontier_to_text(
        problem: *const u8,
        problem_len: usize,
        text: *mut u8,
        text_len: usize,
        place: *mut u32,
        count: *mut u32,
    ) -> u8;

    pub fn frontier_from_text(
        text: *const u8,
        text_len: usize,
        problem: *mut u8,
        problem_len: usize,
        place: *mut u32,
        count: *mut u32,
    ) -> u8;

    pub fn frontier_canonical(
        problem: *const u8,
        problem_len: usize,
        form: *mut u8,
        form_len: usize,
        place: *mut u32,
        count: *mut u32,
        key: *mut u64,
    ) -> u8;

    pub fn frontier_solve_cached(
        problem: *const u8,
        problem_len: usize,
        costs: *mut u32,
        costs_len: usize,
        choices: *mut u8,
        choices_len: usize,
        work: *mut u32,
        work_len: usize,
        store: *mut u8,
        store_len: usize,
        place: *mut u32,
        count: *mut u32,
        hit: *mut u8,
    ) -> u8;

    pub fn frontier_batch(
        batch: *const u8,
        batch_len: usize,
        costs: *mut u32,
        costs_len: usize,
        choices: *mut u8,
        choices_len: usize,
        results: *mut u32,
        results_len: usize,
        work: *mut u32,
        work_len: usize,
        place: *mut u32,
        count: *mut u32,
    ) -> u8;
}

/// What a call is to the linker that makes one form of a problem of another.
pub type Convert = unsafe extern "C" fn(*const u8, usize, *mut u8, usize, *mut u32, *mut u32) -> u8;

/// What the plain call is to the linker, by either form of the search.
pub type Solve = unsafe extern "C" fn(
    *const u8,
    usize,
    *mut u32,
    usize,
    *mut u8,
    usize,
    *mut u32,
    usize,
    *mut u32,
    *mut u32,
) -> u8;
