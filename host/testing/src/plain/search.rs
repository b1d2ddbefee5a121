//! The search: passes of depth-first branch and bound, until one has cut nothing off.

use std::time::Duration;

use super::archive::{with_value, Archive, Choice, Point, NO_CUT};
use super::buckets::{Bucket, Rows, Values};
use super::directions::{Directions, Vector};
use super::settings::Settings;
use super::zones::Zones;
use chooser::clock::thread_time;
use frontier::limits::{MAX_DOMAIN, MAX_VARIABLES};

/// The clock is looked at when these bits of the number of nodes are 0.
const LOOK_MASK: u64 = (1 << 13) - 1;

pub struct Search<'a, const D: usize> {
    buckets: &'a [Bucket<D>],
    lead: usize,
    /// The tie rule compares so many directions.
    compared: usize,
    sorted: bool,
    pub archive: Archive<'a, D>,
    zones: Zones<'a, D>,
    /// The values of the variables before the position that is open.
    values: Values,
    /// How many values were tried.
    pub nodes: u64,
    /// The processor time at which the search gives up.
    end: Option<Duration>,
    pub given_up: bool,
    /// So many positions may still be opened; the plan is left where there are none.
    pub budget: u64,
    /// The part of the tree that was finished when the plan was left.
    pub done: f64,
}

impl<'a, const D: usize> Search<'a, D> {
    pub fn new(
        buckets: &'a [Bucket<D>],
        directions: &'a Directions,
        settings: &Settings,
        room: usize,
        end: Option<Duration>,
    ) -> Search<'a, D> {
        let compared = match settings.tie_sums {
            true => directions.count,
            false => directions.objectives,
        };
        Search {
            buckets,
            lead: directions.lead,
            compared,
            sorted: settings.sorted,
            archive: Archive::new(directions, room),
            zones: Zones::new(directions, settings.zones),
            values: [0; MAX_VARIABLES],
            nodes: 0,
            end,
            given_up: false,
            budget: u64::MAX,
            done: 0.0,
        }
    }

    /// Fills the archive with the frontier, or with more points of it than there is room for.
    /// `base` bounds every choice.
    pub fn run(&mut self, ceilings: &[u32], base: &Vector<D>) {
        loop {
            self.archive.cut = NO_CUT;
            self.zones.restart(ceilings);
            for point in &self.archive.points {
                self.zones.split(&point.costs);
            }
            self.archive.cut_if_overfull();
            if self.is_open(base, 0) {
                self.done = self.open(0, 0, base);
            }
            let ended = self.archive.cut == NO_CUT || self.archive.is_overfull();
            if self.given_up || self.is_left() || ended {
                return;
            }
        }
    }

    /// Whether the plan was left. What the archive holds stays reached; nothing else is known.
    pub fn is_left(&self) -> bool {
        self.budget == 0
    }

    /// Whether completions of a choice with this bound may be new, or earlier than an archived
    /// choice with equal costs.
    fn is_open(&self, bound: &Vector<D>, choice: Choice) -> bool {
        let under_cut = bound[self.lead] < self.archive.cut;
        let may_replace = || self.archive.may_replace(bound, choice, self.compared);
        under_cut && (self.zones.reach(bound) || may_replace())
    }

    /// Tries the values of the variable at a position. `bound` bounds all completions of the
    /// choice, and is the cost of a complete one. The part of the values that was finished.
    fn open(&mut self, position: usize, choice: Choice, bound: &Vector<D>) -> f64 {
        let buckets = self.buckets;
        let Some(bucket) = buckets.get(position) else {
            self.reach_point(choice, *bound);
            return 1.0;
        };
        if self.is_left() {
            return 0.0;
        }
        self.budget -= 1;
        let rows = self.bounds(bucket, bound);
        let mut finished = 0.0;
        for value in self.value_order(&rows, bucket.size) {
            let bound = &rows[usize::from(value)];
            let choice = with_value(choice, bucket.variable, value);
            self.values[bucket.variable] = value;
            self.count_node();
            let mut part = 1.0;
            if self.is_open(bound, choice) {
                part = self.open(position + 1, choice, bound);
            }
            finished += part;
            if self.is_left() {
                break;
            }
        }
        finished / bucket.size as f64
    }

    /// The bound for each value of a bucket's variable: what the bucket holds takes the place of
    /// what it has sent.
    fn bounds(&self, bucket: &Bucket<D>, bound: &Vector<D>) -> Rows<D> {
        let mut kept = *bound;
        subtract(&mut kept, &bucket.constant);
        for &(to, number) in &bucket.sent {
            let receiver = &self.buckets[to];
            let message = &receiver.functions[number];
            subtract(&mut kept, message.entry(receiver.variable, &self.values));
        }
        let mut rows = [[0; D]; MAX_DOMAIN];
        rows[..bucket.size].fill(kept);
        for function in &bucket.functions {
            function.add_row(&self.values, &mut rows[..bucket.size]);
        }
        rows
    }

    /// The values in the order in which they are tried.
    fn value_order(&self, rows: &Rows<D>, size: usize) -> impl Iterator<Item = u8> {
        let mut order: [u8; MAX_DOMAIN] = std::array::from_fn(|value| value as u8);
        if self.sorted {
            order[..size].sort_by_key(|&value| rows[usize::from(value)][self.lead]);
        }
        order.into_iter().take(size)
    }

    fn reach_point(&mut self, choice: Choice, costs: Vector<D>) {
        if self.archive.add(Point { costs, choice }) {
            self.zones.split(&costs);
        }
    }

    fn count_node(&mut self) {
        self.nodes += 1;
        let look = self.nodes & LOOK_MASK == 0;
        if look && self.end.is_some_and(|end| thread_time() > end) {
            self.given_up = true;
            self.archive.cut = 0; // leaves every branch unopened
        }
    }
}

fn subtract<const D: usize>(vector: &mut Vector<D>, other: &Vector<D>) {
    for (number, less) in vector.iter_mut().zip(other) {
        *number -= less;
    }
}
