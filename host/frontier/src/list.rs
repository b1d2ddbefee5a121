//! A frontier in buffers, as the calls for flat buffers list it, and its points.

use std::iter::Zip;
use std::slice::ChunksExact;

/// The efficient frontier of a problem: every cost vector of an allowed choice that no other one beats,
/// in rising order (the first objective compared first), each with the earliest allowed choice that has it.
/// It stands in the buffers of the [`Chooser`](crate::Chooser) that found it.
#[derive(Clone, Copy, Debug, PartialEq, Eq)]
pub struct Frontier<'a> {
    objectives: usize,
    variables: usize,
    costs: &'a [u32],
    choices: &'a [u8],
}

/// A point of a frontier.
#[derive(Clone, Copy, Debug, PartialEq, Eq)]
pub struct Point<'a> {
    /// The cost in each objective.
    pub costs: &'a [u32],
    /// The value of each variable, from 0.
    pub choice: &'a [u8],
}

impl<'a> Frontier<'a> {
    /// The first `count` points in flat buffers, of a problem of these sizes.
    pub(crate) fn new(
        [objectives, variables]: [usize; 2],
        count: usize,
        costs: &'a [u32],
        choices: &'a [u8],
    ) -> Frontier<'a> {
        Frontier {
            objectives,
            variables,
            costs: &costs[..count * objectives],
            choices: &choices[..count * variables],
        }
    }

    /// How many points it has; none where no choice is allowed.
    pub fn len(&self) -> usize {
        self.costs.len() / self.objectives
    }

    /// Whether it has no point.
    pub fn is_empty(&self) -> bool {
        self.costs.is_empty()
    }

    /// Its points in order.
    pub fn points(&self) -> Points<'a> {
        let choices = self.choices.chunks_exact(self.variables);
        Points(self.costs.chunks_exact(self.objectives).zip(choices))
    }

    /// The costs of all points, one point after another.
    pub fn costs(&self) -> &'a [u32] {
        self.costs
    }

    /// The choices of all points, one point after another.
    pub fn choices(&self) -> &'a [u8] {
        self.choices
    }
}

impl<'a> IntoIterator for Frontier<'a> {
    type Item = Point<'a>;
    type IntoIter = Points<'a>;

    fn into_iter(self) -> Points<'a> {
        self.points()
    }
}

/// The points of a frontier, in order.
#[derive(Clone, Debug)]
pub struct Points<'a>(Zip<ChunksExact<'a, u32>, ChunksExact<'a, u8>>);

impl<'a> Iterator for Points<'a> {
    type Item = Point<'a>;

    fn next(&mut self) -> Option<Point<'a>> {
        let (costs, choice) = self.0.next()?;
        Some(Point { costs, choice })
    }

    fn size_hint(&self) -> (usize, Option<usize>) {
        self.0.size_hint()
    }
}

impl ExactSizeIterator for Points<'_> {}
