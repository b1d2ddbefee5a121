//! A batch of problems as bytes, and the buffers that the batch call is lent, with what it leaves there for each
//! problem.

use crate::lent::Answer;
use crate::limits::{CHOICES_LEN, COSTS_LEN, FRAME_BYTES, LEAST_WORK, RESULT_LEN};
use crate::list::Frontier;
use crate::problem::sizes;
use crate::refusal::{check, Refusal};

/// The problems as one batch: each behind the mark `BP` and its length in four bytes. Nothing else is checked:
/// neither the problems, nor whether they are too many for a batch.
///
/// # Panics
///
/// If a problem has 4,294,967,296 bytes or more, whose number does not fit there.
///
/// ```
/// assert_eq!(frontier::lent::frame(&[b"HD", b""]), b"BP\x02\0\0\0HDBP\0\0\0\0");
/// ```
pub fn frame(problems: &[&[u8]]) -> Vec<u8> {
    let bytes: usize = problems.iter().map(|p| FRAME_BYTES + p.len()).sum();
    let mut batch = Vec::with_capacity(bytes);
    for problem in problems {
        let length = u32::try_from(problem.len()).expect("a problem's length has 32 bits");
        batch.extend(b"BP");
        batch.extend(length.to_le_bytes());
        batch.extend(*problem);
    }
    batch
}

/// The four buffers that the batch call is lent. Each problem has an area of the first three, one behind the
/// other: [`COSTS_LEN`] costs, [`CHOICES_LEN`] choices and [`RESULT_LEN`] results.
#[derive(Clone, Debug, PartialEq, Eq)]
pub struct BatchBuffers {
    /// For the costs of the points.
    pub costs: Vec<u32>,
    /// For the choices of the points.
    pub choices: Vec<u8>,
    /// For number, place and count of each problem.
    pub results: Vec<u32>,
    /// Memory to work in.
    pub work: Vec<u32>,
}

impl BatchBuffers {
    /// Areas for so many problems, and the least work buffer, all zero.
    pub fn new(problems: usize) -> BatchBuffers {
        BatchBuffers {
            costs: vec![0; COSTS_LEN * problems],
            choices: vec![0; CHOICES_LEN * problems],
            results: vec![0; RESULT_LEN * problems],
            work: vec![0; LEAST_WORK],
        }
    }

    /// Lends the buffers to a batch call.
    pub fn lend(
        &mut self,
        call: impl Fn(&[u8], &mut [u32], &mut [u8], &mut [u32], &mut [u32]) -> Answer,
        batch: &[u8],
    ) -> Answer {
        let (costs, choices) = (&mut self.costs, &mut self.choices);
        call(batch, costs, choices, &mut self.results, &mut self.work)
    }

    /// What an accepted batch has left of its problem `k`, counted from 0: the answer of a call of its own.
    ///
    /// # Panics
    ///
    /// If there is no such area, or if no call has written there and it has no number of refusal.
    pub fn answer(&self, k: usize) -> Answer {
        let [number, place, count] = area::<_, RESULT_LEN>(&self.results, k);
        Answer {
            number: u8::try_from(*number).expect("the call writes numbers of refusal"),
            place: *place,
            count: *count,
        }
    }

    /// The points that an accepted batch has left of its problem `k`, which is this one; or its refusal.
    ///
    /// # Panics
    ///
    /// As [`answer`](BatchBuffers::answer) does.
    pub fn listed(&self, k: usize, problem: &[u8]) -> Result<Frontier<'_>, Refusal> {
        let answer = self.answer(k);
        check(answer.number, answer.place)?;
        Ok(Frontier::new(
            sizes(problem),
            answer.count as usize,
            area::<_, COSTS_LEN>(&self.costs, k),
            area::<_, CHOICES_LEN>(&self.choices, k),
        ))
    }
}

/// The area of problem `k`, where each has `LENGTH` elements.
fn area<T, const LENGTH: usize>(buffer: &[T], k: usize) -> &[T; LENGTH] {
    let areas = buffer[LENGTH * k..].first_chunk();
    areas.expect("each problem of an accepted batch has its areas")
}
