//! The calls for measuring: the same answers by another way, or with figures of the search. Nothing
//! else should use them.

use crate::ffi::{frontier_solve_by_passes, frontier_solve_measured};
use crate::lent::{answer_of, Answer};

/// The plain call by the first form of the search: the same answer, later. Benchmarks and tests
/// compare with it.
pub fn solve_by_passes(
    problem: &[u8],
    costs: &mut [u32],
    choices: &mut [u8],
    work: &mut [u32],
) -> Answer {
    answer_of(frontier_solve_by_passes, problem, costs, choices, work)
}

/// Which form of the search answered.
#[derive(Clone, Copy, Debug, PartialEq, Eq)]
pub enum Form {
    /// Passes in list order: slow, and the way out where the second form gives up.
    First,
    /// Branch and bound over a plan.
    Second,
}

/// What a search took. Nothing is promised of these figures.
#[derive(Clone, Copy, Debug, PartialEq, Eq)]
pub struct Measures {
    /// None where the problem was refused before a search.
    pub form: Option<Form>,
    /// How many plans of the second form were made.
    pub plans: u64,
    /// How many of them failed their test, so that nothing was searched by them.
    pub failed: u64,
    /// How many passes were made by the others.
    pub passes: u64,
    /// How many partial choices these opened.
    pub opened: u64,
}

impl Measures {
    /// From the numbers that the library writes, the first five of them.
    pub fn new([form, plans, failed, passes, opened]: [u64; 5]) -> Measures {
        let form = match form {
            1 => Some(Form::First),
            2 => Some(Form::Second),
            _ => None,
        };
        Measures {
            form,
            plans,
            failed,
            passes,
            opened,
        }
    }

    /// The numbers that they were made from.
    pub fn numbers(&self) -> [u64; 5] {
        let form = match self.form {
            None => 0,
            Some(Form::First) => 1,
            Some(Form::Second) => 2,
        };
        [form, self.plans, self.failed, self.passes, self.opened]
    }
}

/// The plain call, and what its search took.
pub fn solve_measured(
    problem: &[u8],
    costs: &mut [u32],
    choices: &mut [u8],
    work: &mut [u32],
) -> (Answer, Measures) {
    let (mut place, mut count, mut measures) = (0, 0, [0; 8]);
    // SAFETY: each pointer comes from a reference, so it is aligned, never null (not even for an
    // empty slice) and valid for the length beside it; the six that are written are exclusive, so
    // they overlap neither each other nor the problem. The call keeps no pointer after it returns.
    let number = unsafe {
        frontier_solve_measured(
            problem.as_ptr(),
            problem.len(),
            costs.as_mut_ptr(),
            costs.len(),
            choices.as_mut_ptr(),
            choices.len(),
            work.as_mut_ptr(),
            work.len(),
            &mut place,
            &mut count,
            &mut measures,
        )
    };
    let answer = Answer {
        number,
        place,
        count,
    };
    let [form, plans, failed, passes, opened, ..] = measures;
    let measures = Measures::new([form, plans, failed, passes, opened]);
    (answer, measures)
}
