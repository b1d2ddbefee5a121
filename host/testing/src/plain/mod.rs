//! The second form of the search in plain Rust, with ordinary vectors: what the benchmark `speed`
//! compares the chooser with. Nothing but this benchmark and its tests uses it.
//!
//! It is branch and bound. The bound comes from messages between buckets of cost functions, in the
//! objectives and in weighted sums of them; branches stay unopened outside the search zones that
//! the archived points leave.

mod archive;
mod buckets;
mod directions;
mod messages;
mod order;
mod search;
mod settings;
mod zones;

use std::time::Duration;

use settings::MOST_TURNS;
pub use settings::{Settings, SETTINGS};

use crate::reading::read_problem;
use archive::{value_in, Point};
use buckets::{domain_sizes, fill_buckets, Bucket};
use chooser::clock::thread_time;
use directions::{Directions, Extent, Vector, Weighting};
use frontier::lent::Answer;
use frontier::limits::{LEAST_WORK, MAX_POINTS};
use frontier::{Problem, Refusal};
use messages::send_all;
use order::{search_order, Rule};
use search::Search;

/// How a search ended.
#[derive(Clone, Copy, Debug, PartialEq, Eq)]
pub struct Outcome {
    /// None if it was given up.
    pub answer: Option<Answer>,
    /// How many values were tried.
    pub nodes: u64,
}

/// Lists the frontier into the flat buffers, as the flat call does. It needs no lent memory, but
/// refuses where a call lent `work_length` numbers does.
pub fn solve_problem(
    settings: &Settings,
    bytes: &[u8],
    costs: &mut [u32],
    choices: &mut [u8],
    work_length: usize,
) -> Answer {
    let outcome = solve_within(None, settings, bytes, costs, choices, work_length);
    outcome.answer.expect("a search without a limit ends")
}

/// The same, given up after about this processor time.
pub fn solve_within(
    limit: Option<Duration>,
    settings: &Settings,
    bytes: &[u8],
    costs: &mut [u32],
    choices: &mut [u8],
    work_length: usize,
) -> Outcome {
    let end = limit.map(|limit| thread_time() + limit);
    let problem = match read_with_work(bytes, work_length) {
        Ok(problem) => problem,
        Err(refusal) => {
            let answer = Some(refusal.into());
            return Outcome { answer, nodes: 0 };
        }
    };
    let by_costs = costs.len() / problem.objectives();
    let by_choices = choices.len() / problem.variables();
    let task = Task {
        problem: &problem,
        settings,
        extent: Extent::new(&problem),
        room: by_costs.min(by_choices).min(MAX_POINTS),
        end,
    };
    match problem.objectives() {
        1 => task.run::<1>(costs, choices),
        2 => task.run::<6>(costs, choices),
        3 => task.run::<7>(costs, choices),
        _ => task.run::<8>(costs, choices),
    }
}

fn read_with_work(bytes: &[u8], work_length: usize) -> Result<Problem, Refusal> {
    let problem = read_problem(bytes)?.problem;
    match work_length < LEAST_WORK {
        true => Err(Refusal::Work),
        false => Ok(problem),
    }
}

/// Archived points with their sums in other directions.
fn with_sums<const D: usize>(mut points: Vec<Point<D>>, directions: &Directions) -> Vec<Point<D>> {
    for point in &mut points {
        point.costs = directions.with_sums(point.costs);
    }
    points
}

/// An accepted problem to be searched.
struct Task<'a> {
    problem: &'a Problem,
    settings: &'a Settings,
    extent: Extent,
    room: usize,
    /// The processor time at which the search is given up.
    end: Option<Duration>,
}

/// Positions that may be opened in each turn but the last, in parts of the setting `budget`: four
/// kinds of plan in turn, and then the one that came furthest to its end. The first one answers most
/// problems, and the four together cost no more than a fraction of a second.
const BUDGETS: [u64; MOST_TURNS - 1] = [4, 1, 1, 1];

/// Messages of the first plan are over at most so many variables: it costs less to make, and most
/// problems end with it.
const FIRST_WIDTH: usize = 2;

/// Which kind of plan came furthest, and how far.
struct Furthest {
    kind: usize,
    done: f64,
}

impl Task<'_> {
    /// Searches with vectors of D numbers, which is at least the number of directions.
    fn run<const D: usize>(&self, costs: &mut [u32], choices: &mut [u8]) -> Outcome {
        let mut points: Vec<Point<D>> = Vec::new();
        let mut nodes = 0;
        let mut furthest = Furthest { kind: 0, done: 0.0 };
        for turn in 0..self.settings.turns {
            let kind = self.kind(turn, &furthest);
            let directions = self.directions(kind);
            let (buckets, base) = self.plan::<D>(&directions, self.rule(kind), self.width(turn));
            let mut search = Search::new(&buckets, &directions, self.settings, self.room, self.end);
            search.archive.points = with_sums(points, &directions);
            if let (true, Some(parts)) = (turn + 1 < self.settings.turns, BUDGETS.get(turn)) {
                search.budget = parts * self.settings.budget as u64;
            }
            search.run(&self.problem.ceilings, &base);
            nodes += search.nodes;
            if search.given_up {
                break;
            }
            let (is_left, done) = (search.is_left(), search.done);
            points = search.archive.points;
            if !is_left {
                let answer = Some(self.write(points, costs, choices));
                return Outcome { answer, nodes };
            }
            if done > furthest.done {
                furthest = Furthest { kind, done };
            }
        }
        Outcome {
            answer: None,
            nodes,
        }
    }

    /// The kind of plan in a turn: each in turn, and then the one that came furthest.
    fn kind(&self, turn: usize, furthest: &Furthest) -> usize {
        match self.settings.kinds {
            false => 0,
            true if turn + 1 < self.settings.turns => turn,
            true => furthest.kind,
        }
    }

    /// How many variables a message of a turn's plan may have.
    fn width(&self, turn: usize) -> usize {
        match turn {
            0 => self.settings.width.min(FIRST_WIDTH),
            _ => self.settings.width,
        }
    }

    /// Whether plans of the fourth kind have one sum alone: several objectives, and a ceiling that
    /// binds. With fewer directions there is room for wider messages.
    fn has_one_sum(&self) -> bool {
        self.problem.objectives() > 1 && self.extent.binds && self.settings.slacks
    }

    /// The directions of a kind of plan.
    fn directions(&self, kind: usize) -> Directions {
        let settings = self.settings;
        let (by, sums) = match kind {
            _ if !self.extent.binds || !settings.slacks => (Weighting::Spreads, settings.sums),
            1 => (Weighting::Slacks, settings.sums),
            3 => (Weighting::Slacks, settings.sums.min(1)),
            _ => (Weighting::OneBySlacks, settings.sums),
        };
        Directions::new(&self.extent, self.problem.objectives(), sums, by)
    }

    /// The rule for the order of a kind of plan.
    fn rule(&self, kind: usize) -> Rule {
        match kind {
            _ if !self.settings.min_degree => Rule::Natural,
            0 => Rule::LastOfFewest,
            1 => Rule::FirstOfFewest,
            3 if !self.has_one_sum() => Rule::Natural,
            _ => Rule::LeastFill,
        }
    }

    /// The buckets with their messages, and a bound of every choice.
    fn plan<const D: usize>(
        &self,
        directions: &Directions,
        rule: Rule,
        width: usize,
    ) -> (Vec<Bucket<D>>, Vector<D>) {
        let order = search_order(self.problem, rule);
        let (mut buckets, mut base) = fill_buckets::<D>(self.problem, &order, directions);
        let sizes = domain_sizes(self.problem);
        send_all(&mut buckets, &sizes, width, directions, self.settings);
        for bucket in &buckets {
            for (number, more) in base.iter_mut().zip(&bucket.constant) {
                *number += more;
            }
        }
        (buckets, base)
    }

    /// Writes the points in list order, or refuses with 15.
    fn write<const D: usize>(
        &self,
        mut points: Vec<Point<D>>,
        costs: &mut [u32],
        choices: &mut [u8],
    ) -> Answer {
        if points.len() > self.room {
            return Refusal::Full.into();
        }
        points.sort_by_key(|point| point.costs);
        let costs = costs.chunks_exact_mut(self.problem.objectives());
        let choices = choices.chunks_exact_mut(self.problem.variables());
        for ((point, costs), choices) in points.iter().zip(costs).zip(choices) {
            for (slot, &cost) in costs.iter_mut().zip(&point.costs) {
                *slot = cost as u32; // at most a 32-bit ceiling
            }
            for (variable, slot) in choices.iter_mut().enumerate() {
                *slot = value_in(point.choice, variable);
            }
        }
        Answer::accepted(points.len())
    }
}
