//! The buffers that a flat call is lent, and flat calls as values.

use crate::lent::{Answer, CachedAnswer, Halves};
use crate::limits::{CHOICES_LEN, COSTS_LEN, LEAST_WORK};
use crate::list::Frontier;
use crate::problem::sizes;
use crate::refusal::{check, Refusal};

/// A flat call, as `solve_problem` is: problem, costs, choices, work.
pub type SolveCall = fn(&[u8], &mut [u32], &mut [u8], &mut [u32]) -> Answer;

/// A cut call, as `solve_cut` is: problem, sides, costs, choices, work.
pub type CutCall = fn(&[u8], &[u8], &mut [u32], &mut [u8], &mut [u32]) -> Halves;

/// A cached call, as `solve_cached` is: problem, costs, choices, work, store.
pub type CachedCall = fn(&[u8], &mut [u32], &mut [u8], &mut [u32], &mut [u8]) -> CachedAnswer;

/// A batch call, as `solve_batch` is: batch, costs, choices, results, work.
pub type BatchCall = fn(&[u8], &mut [u32], &mut [u8], &mut [u32], &mut [u32]) -> Answer;

/// The three buffers that a flat call is lent.
#[derive(Clone, Debug, PartialEq, Eq)]
pub struct Buffers {
    /// For the costs of the points, one point after another.
    pub costs: Vec<u32>,
    /// For the choices of the points, one point after another.
    pub choices: Vec<u8>,
    /// Memory to work in.
    pub work: Vec<u32>,
}

impl Buffers {
    /// Room for 64 points of any problem, and the least work buffer, all zero.
    pub fn full() -> Buffers {
        Buffers {
            costs: vec![0; COSTS_LEN],
            choices: vec![0; CHOICES_LEN],
            work: vec![0; LEAST_WORK],
        }
    }

    /// Lends the buffers to a flat call.
    pub fn lend(
        &mut self,
        call: impl Fn(&[u8], &mut [u32], &mut [u8], &mut [u32]) -> Answer,
        bytes: &[u8],
    ) -> Answer {
        call(bytes, &mut self.costs, &mut self.choices, &mut self.work)
    }

    /// Lends the buffers to a cut call.
    pub fn lend_cut(
        &mut self,
        call: impl Fn(&[u8], &[u8], &mut [u32], &mut [u8], &mut [u32]) -> Halves,
        bytes: &[u8],
        sides: &[u8],
    ) -> Halves {
        let (costs, choices) = (&mut self.costs, &mut self.choices);
        call(bytes, sides, costs, choices, &mut self.work)
    }

    /// Lends the buffers to a cached call, with a store beside them.
    pub fn lend_cached(
        &mut self,
        call: impl Fn(&[u8], &mut [u32], &mut [u8], &mut [u32], &mut [u8]) -> CachedAnswer,
        bytes: &[u8],
        store: &mut [u8],
    ) -> CachedAnswer {
        let (costs, choices) = (&mut self.costs, &mut self.choices);
        call(bytes, costs, choices, &mut self.work, store)
    }

    /// The points that an answer to this problem has left in the buffers, or its refusal.
    pub fn listed(&self, problem: &[u8], answer: Answer) -> Result<Frontier<'_>, Refusal> {
        check(answer.number, answer.place)?;
        let count = answer.count as usize;
        Ok(Frontier::new(
            sizes(problem),
            count,
            &self.costs,
            &self.choices,
        ))
    }
}
