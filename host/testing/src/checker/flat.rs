//! What every element of the lent buffers must be after a call.

use crate::owned::Listed;
use frontier::lent::{Answer, Buffers, Halves, PointRecord};
use frontier::limits::{LEAST_WORK, MAX_POINTS};
use frontier::{Problem, Refusal};

use super::{ensure, Verdict};

/// What is known of a problem's frontier: its size, and the list if that is at most 64.
pub struct Known<'a> {
    pub problem: &'a Problem,
    pub list: &'a [Listed],
    pub size: usize,
}

impl Known<'_> {
    /// The answer that a call of this room must give, with a work buffer of this length.
    pub fn expected_answer(&self, room: usize, work: usize) -> Answer {
        if work < LEAST_WORK {
            return Refusal::Work.into();
        }
        if self.size > room.min(MAX_POINTS) {
            return Refusal::Full.into();
        }
        Answer::accepted(self.size)
    }

    /// Checks an answer and every element of the flat buffers against those before the call.
    pub fn check_flat(&self, before: &Buffers, after: &Buffers, answer: Answer) -> Verdict {
        let (p, n) = (self.problem.ceilings.len(), self.problem.domains.len());
        let room = (before.costs.len() / p).min(before.choices.len() / n);
        let expected = self.expected_answer(room, before.work.len());
        ensure(answer == expected, || {
            format!("answer {answer:?}, expected {expected:?}")
        })?;
        let mut costs = before.costs.clone();
        let mut choices = before.choices.clone();
        for (i, point) in self.list.iter().take(answer.count as usize).enumerate() {
            costs[i * p..(i + 1) * p].copy_from_slice(&point.costs);
            choices[i * n..(i + 1) * n].copy_from_slice(&point.choice);
        }
        ensure(after.costs == costs, || "cost buffer".into())?;
        ensure(after.choices == choices, || "choice buffer".into())?;
        check_work(&before.work, &after.work, answer)
    }

    /// Checks what a cut answers that its sides allow: half sizes, which are 0 after a refusal, and
    /// the rest as after a flat call.
    pub fn check_cut(
        &self,
        sizes: [u32; 2],
        before: &Buffers,
        after: &Buffers,
        cut: Halves,
    ) -> Verdict {
        let listed = cut.answer.number == 0;
        let due = if listed { sizes } else { [0, 0] };
        ensure([cut.first, cut.second] == due, || {
            format!("{cut:?} for half sizes {sizes:?}")
        })?;
        self.check_flat(before, after, cut.answer)
    }

    /// Checks an answer and every element of a point list against those before the call.
    pub fn check_points(
        &self,
        before: &[PointRecord],
        after: &[PointRecord],
        answer: Answer,
    ) -> Verdict {
        let expected = self.expected_answer(before.len(), LEAST_WORK);
        ensure(answer == expected, || {
            format!("points answer {answer:?}, expected {expected:?}")
        })?;
        let written = answer.count as usize;
        for (point, known) in after[..written].iter().zip(self.list) {
            let (costs, unused_costs) = point.costs.split_at(known.costs.len());
            let (choice, unused_choice) = point.choice.split_at(known.choice.len());
            let unused =
                unused_costs.iter().all(|&c| c == 0) && unused_choice.iter().all(|&x| x == 0);
            let right = costs == known.costs && choice == known.choice && unused;
            ensure(right, || format!("{point:?} for {known:?}"))?;
        }
        ensure(after[written..] == before[written..], || {
            "point records past the count".into()
        })
    }
}

/// Checks the work buffer: all zero after an answer and after 15, else unchanged.
pub fn check_work(before: &[u32], after: &[u32], answer: Answer) -> Verdict {
    let zeroed = matches!(answer.number, 0 | 15);
    let right = if zeroed {
        after.len() == before.len() && after.iter().all(|&number| number == 0)
    } else {
        after == before
    };
    ensure(right, || {
        format!("work buffer after number {}", answer.number)
    })
}
