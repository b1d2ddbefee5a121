//! Directions: the objectives, and weighted sums of them that bound several objectives at once.

use super::settings::MOST_SUMS;
use frontier::limits::MAX_OBJECTIVES;
use frontier::{Problem, FORBIDDEN};

/// A number in each direction: the p objectives, then the sums. Unused ones are 0. The number of
/// directions is a parameter, so that problems with few of them do not pay for all.
pub type Vector<const D: usize> = [u64; D];

/// The directions of one problem.
pub struct Directions {
    pub objectives: usize,
    /// Objectives and sums.
    pub count: usize,
    /// The direction of the leading sum: every objective has a weight of at least 1 in it, so that
    /// a vector that beats another has the smaller one. With one objective it is that one.
    pub lead: usize,
    weights: [[u64; MAX_OBJECTIVES]; MOST_SUMS],
}

/// The share of each objective in each sum, for two, three and four objectives. The first sum
/// leads, so it leaves none out.
const SHARES: [[[u64; MAX_OBJECTIVES]; MOST_SUMS]; MAX_OBJECTIVES - 1] = [
    [[1, 1, 0, 0], [3, 1, 0, 0], [1, 3, 0, 0], [1, 10, 0, 0]],
    [[1, 1, 1, 0], [1, 0, 1, 0], [1, 1, 0, 0], [0, 1, 1, 0]],
    [[1, 1, 1, 1], [1, 0, 1, 0], [1, 0, 0, 1], [1, 1, 0, 0]],
];

/// What a share is multiplied by before it is divided by a range.
const SCALE: u64 = 1 << 60;

/// The rate that is worth a weight of 1, unless a weight gets too large: so most sums fit the 32
/// bits of corners and messages, and a sum that does not is of no use.
const UNIT: u64 = 1 << 36;

/// With weights up to this the sum of 256 weighted entries is below 2^62.
const MOST_WEIGHT: u64 = 1 << 12;

/// One number for each objective.
type Four = [u64; MAX_OBJECTIVES];

/// What is known of the objectives' costs before the search.
pub struct Extent {
    /// How far the entries within the ceiling lie apart, added up; the slack where they do not.
    spreads: Four,
    /// What the ceiling leaves above the least possible sum: at least a sixteenth of the largest
    /// sum there may be, since a larger weight would make corners overflow, and at least 1.
    slacks: Four,
    /// Whether a ceiling forbids sums that the entries within it allow.
    pub binds: bool,
}

impl Extent {
    pub fn new(problem: &Problem) -> Extent {
        let (lows, mosts) = sums_of_entries(problem);
        let last = |j: usize| u64::from(problem.ceilings.get(j).copied().unwrap_or(0));
        let top = |j: usize| mosts[j].min(last(j));
        let slack = |j: usize| top(j).saturating_sub(lows[j]).max(top(j) >> 4) + 1;
        let spread = |j: usize| match mosts[j] - lows[j] {
            0 => slack(j),
            apart => apart,
        };
        Extent {
            spreads: std::array::from_fn(spread),
            slacks: std::array::from_fn(slack),
            binds: (0..problem.objectives()).any(|j| last(j) < mosts[j]),
        }
    }
}

/// For each objective the sums of the least and of the largest entries that are within its ceiling and allowed.
fn sums_of_entries(problem: &Problem) -> (Four, Four) {
    let (mut lows, mut mosts) = ([0; MAX_OBJECTIVES], [0; MAX_OBJECTIVES]);
    for table in &problem.tables {
        let objective = usize::from(table.objective);
        let ceiling = problem.ceilings[objective];
        let within = |cost: u32| cost <= ceiling && cost < FORBIDDEN;
        let allowed = table.costs.iter().filter(|&&cost| within(cost));
        if let (Some(&least), Some(&most)) = (allowed.clone().min(), allowed.max()) {
            lows[objective] += u64::from(least);
            mosts[objective] += u64::from(most);
        }
    }
    (lows, mosts)
}

/// The weights of a sum: in proportion to shares over ranges, which are at least 1. Only a weight
/// that would be 0 is raised to 1.
fn weights_of(shares: &Four, ranges: &Four) -> Four {
    let rates: Four = std::array::from_fn(|j| shares[j] * SCALE / ranges[j]);
    let most = rates.iter().max().expect("there are four");
    let unit = (most / MOST_WEIGHT + 1).max(UNIT);
    rates.map(|rate| match rate {
        0 => 0,
        _ => (rate / unit).clamp(1, MOST_WEIGHT),
    })
}

/// What the sums of a plan are weighted by.
#[derive(Clone, Copy, PartialEq, Eq)]
pub enum Weighting {
    /// All by spreads.
    Spreads,
    /// All but the fourth by spreads, and that in equal shares by slacks.
    OneBySlacks,
    /// All by slacks.
    Slacks,
}

impl Directions {
    /// The objectives and up to `sums` sums, of which one objective has none.
    pub fn new(extent: &Extent, objectives: usize, sums: usize, by: Weighting) -> Directions {
        let several = objectives > 1;
        let sums = if several { sums } else { 0 };
        let mut weights = [[0; MAX_OBJECTIVES]; MOST_SUMS];
        for (sum, weights) in weights.iter_mut().enumerate().take(sums) {
            let shares = &SHARES[objectives - 2];
            *weights = match (by, sum) {
                (Weighting::OneBySlacks, 3) => weights_of(&shares[0], &extent.slacks),
                (Weighting::Slacks, _) => weights_of(&shares[sum], &extent.slacks),
                _ => weights_of(&shares[sum], &extent.spreads),
            };
        }
        Directions {
            objectives,
            count: objectives + sums,
            lead: if several { objectives } else { 0 },
            weights,
        }
    }

    /// A vector with the sums of its objectives.
    pub fn with_sums<const D: usize>(&self, mut vector: Vector<D>) -> Vector<D> {
        for sum in 0..self.count - self.objectives {
            let weights = &self.weights[sum];
            let costs = &vector[..self.objectives];
            let total = costs.iter().zip(weights).map(|(c, w)| c * w).sum();
            vector[self.objectives + sum] = total;
        }
        vector
    }
}
