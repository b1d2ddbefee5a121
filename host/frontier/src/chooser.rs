//! The chooser with buffers of its own.

use crate::lent::{bound_prefix, frame, solve_batch, solve_cached, solve_cut, solve_problem};
use crate::lent::{BatchBuffers, Buffers};
use crate::limits::{MAX_BATCH, MAX_BYTES, MAX_OBJECTIVES, MAX_POINTS};
use crate::list::Frontier;
use crate::measure::{solve_measured, Measures};
use crate::problem::sizes;
use crate::refusal::{check, Refusal};
use crate::store::{Cached, Store};

/// The proved calls with one set of buffers, which is used again for problem after problem. An answer
/// does not depend on the problems before it.
///
/// A problem is given as its record bytes, as [`Problem::encode`](crate::Problem::encode) makes them.
#[derive(Clone, Debug)]
pub struct Chooser {
    lent: Buffers,
    /// For batches; none before the first.
    batch: Option<BatchBuffers>,
    room: usize,
}

/// What the cut call answers.
#[derive(Clone, Copy, Debug, PartialEq, Eq)]
pub struct Cut<'a> {
    /// The frontier of the whole problem.
    pub frontier: Frontier<'a>,
    /// How many points the frontier of each half has.
    pub halves: [usize; 2],
}

/// What the completions of a prefix cost at least.
#[derive(Clone, Copy, Debug, PartialEq, Eq)]
pub struct Bound {
    least: [u64; MAX_OBJECTIVES],
    objectives: usize,
}

impl Bound {
    /// The least cost in each objective.
    pub fn costs(&self) -> &[u64] {
        &self.least[..self.objectives]
    }
}

impl Chooser {
    /// A chooser with room for 64 points, which is the most that there is.
    pub fn new() -> Chooser {
        Chooser::with_room(MAX_POINTS)
    }

    /// A chooser that refuses frontiers of more points than these.
    pub fn with_room(points: usize) -> Chooser {
        Chooser {
            lent: Buffers::full(),
            batch: None,
            room: points.min(MAX_POINTS),
        }
    }

    /// Lists the frontier of a problem.
    pub fn solve(&mut self, problem: &[u8]) -> Result<Frontier<'_>, Refusal> {
        self.make_room(problem);
        let answer = self.lent.lend(solve_problem, problem);
        self.lent.listed(problem, answer)
    }

    /// Lists the frontiers of up to [`MAX_BATCH`] problems in one call, in their order, each as
    /// [`solve`](Chooser::solve) does: a problem that is refused has its refusal there, and the others are answered
    /// all the same. Only more problems than these are refused as a whole ([`Refusal::Batch`]); of any number,
    /// [`chunks`](slice::chunks) makes batches.
    ///
    /// ```
    /// use frontier::limits::MAX_BATCH;
    /// use frontier::{Chooser, Problem, Refusal, Table};
    ///
    /// let problem = |ceiling| Problem {
    ///     ceilings: vec![ceiling],
    ///     domains: vec![2],
    ///     tables: vec![Table::new(0, &[0], &[30, 20])],
    /// };
    /// let mut problems: Vec<Vec<u8>> = (0..40).map(|ceiling| problem(ceiling).encode()).collect();
    /// problems[7].pop(); // this one has lost its last byte
    ///
    /// let mut chooser = Chooser::new();
    /// let mut points = Vec::new();
    /// for batch in problems.chunks(MAX_BATCH) {
    ///     for frontier in chooser.solve_batch(batch)? {
    ///         points.push(frontier.map(|frontier| frontier.len()));
    ///     }
    /// }
    /// assert_eq!(points[7], Err(Refusal::CutShort(13)));
    /// assert_eq!([points[19], points[20]], [Ok(0), Ok(1)]);
    /// assert_eq!(chooser.solve_batch(&problems), Err(Refusal::Batch));
    /// # Ok::<(), frontier::Refusal>(())
    /// ```
    pub fn solve_batch(
        &mut self,
        problems: &[impl AsRef<[u8]>],
    ) -> Result<Vec<Result<Frontier<'_>, Refusal>>, Refusal> {
        // A longer problem is refused for its length, so that no more of it is copied.
        let problems: Vec<&[u8]> = problems
            .iter()
            .map(AsRef::as_ref)
            .map(|bytes| bytes.get(..=MAX_BYTES).unwrap_or(bytes))
            .collect();
        let lent = self
            .batch
            .get_or_insert_with(|| BatchBuffers::new(MAX_BATCH));
        let answer = lent.lend(solve_batch, &frame(&problems));
        check(answer.number, answer.place)?;
        let (lent, room) = (&*lent, self.room);
        let listed = |(k, problem): (usize, &&[u8])| match lent.listed(k, problem) {
            // The areas of a batch have room for 64 points, whatever was asked for.
            Ok(frontier) if frontier.len() > room => Err(Refusal::Full),
            listed => listed,
        };
        Ok(problems.iter().enumerate().map(listed).collect())
    }

    /// Lists the frontier of a problem, from the store if that holds it. A problem that was not there is
    /// stored, and the one that was stored first gives way if all slots are taken.
    ///
    /// With a store that began cleared and that other calls than this one do not write to, the answer is always
    /// that of [`solve`](Chooser::solve). Choosers with any room may share a store: a frontier is stored whole.
    ///
    /// A refusal does not say whether the store held the problem; [`lent::solve_cached`](crate::lent::solve_cached)
    /// does.
    pub fn solve_cached(
        &mut self,
        problem: &[u8],
        store: &mut Store,
    ) -> Result<Cached<'_>, Refusal> {
        self.make_room(problem);
        let found = self
            .lent
            .lend_cached(solve_cached, problem, store.bytes_mut());
        Ok(Cached {
            frontier: self.lent.listed(problem, found.answer)?,
            hit: found.hit != 0,
        })
    }

    /// Lists the frontier of a problem, and tells what its search took.
    pub fn solve_measured(&mut self, problem: &[u8]) -> (Result<Frontier<'_>, Refusal>, Measures) {
        self.make_room(problem);
        let Buffers {
            costs,
            choices,
            work,
        } = &mut self.lent;
        let (answer, measures) = solve_measured(problem, costs, choices, work);
        (self.lent.listed(problem, answer), measures)
    }

    /// Lists the frontier of a problem by way of two halves that no cost record links. The side of
    /// each variable, 0 or 1, says to which half it belongs.
    pub fn cut(&mut self, problem: &[u8], sides: &[u8]) -> Result<Cut<'_>, Refusal> {
        self.make_room(problem);
        let found = self.lent.lend_cut(solve_cut, problem, sides);
        Ok(Cut {
            frontier: self.lent.listed(problem, found.answer)?,
            halves: [found.first, found.second].map(|size| size as usize),
        })
    }

    /// Bounds the cost of every choice that starts with these values for variables 0, 1, and so on:
    /// none costs less in any objective. This call needs no buffers.
    pub fn bound(problem: &[u8], prefix: &[u8]) -> Result<Bound, Refusal> {
        let found = bound_prefix(problem, prefix);
        check(found.number, found.place)?;
        let [objectives, _] = sizes(problem);
        let least = found.least;
        Ok(Bound { least, objectives })
    }

    /// Gives the cost buffer the length that leaves this room. For bytes that are refused it does not
    /// matter.
    fn make_room(&mut self, problem: &[u8]) {
        let objectives = problem.get(3).copied().map_or(1, usize::from);
        let objectives = objectives.min(MAX_OBJECTIVES);
        self.lent.costs.resize(self.room * objectives, 0);
    }
}

impl Default for Chooser {
    fn default() -> Chooser {
        Chooser::new()
    }
}
