//! Random problems with every ceiling below 4,294,967,295, and digests of what the plain and the cut call
//! answer to them. Under such ceilings the answers are those that version 2.2.0, in which a cost equal to its
//! ceiling was not allowed, gave under ceilings one larger: the digests of those are in
//! `host/data/ceilings.digests`.
//!
//! The problems stay as they are, because no other problem has an answer of that version there.

use crate::brute::{cost_vector, next_choice};
use chooser::digest::fnv_1a;
use chooser::junk::Rng;
use frontier::lent::{Answer, Buffers, CutCall, SolveCall};
use frontier::limits::{MAX_ARITY, MAX_OBJECTIVES, MAX_POINTS};
use frontier::{Problem, Table, FORBIDDEN};

/// How many digests there are.
pub const DIGESTS: u64 = 100;

/// How many problems are in a digest.
pub const PROBLEMS: u64 = 1_000;

/// The greatest of these ceilings, and the greatest entry that forbids nothing.
const GREATEST: u32 = FORBIDDEN - 1;

/// The greatest number of complete choices of a problem.
const CHOICES: usize = 128;

/// A problem, the side list for a cut, and how many points fit the buffers.
pub struct Case {
    pub problem: Problem,
    pub sides: Vec<u8>,
    pub room: usize,
}

impl Case {
    /// The case of a number: always the same one.
    pub fn new(number: u64) -> Case {
        let mut rng = Rng::new(number);
        let (problem, sides) = random_problem(&mut rng);
        let room = match rng.once_in(4) {
            true => rng.below(4),
            false => MAX_POINTS,
        };
        Case {
            problem,
            sides,
            room,
        }
    }

    /// The same with each ceiling one larger.
    pub fn raised(self) -> Case {
        let problem = raised(self.problem).expect("ceilings below the greatest");
        Case { problem, ..self }
    }

    /// Buffers with this room.
    pub fn buffers(&self) -> Buffers {
        let mut lent = Buffers::full();
        lent.costs.truncate(self.room * self.problem.objectives());
        lent
    }

    /// What the plain and the cut call answer, as the bytes that are digested. Of the costs and choices it
    /// is those of the listed points.
    pub fn answered(&self, solve: SolveCall, cut: CutCall) -> Vec<u8> {
        let (bytes, mut lent) = (self.problem.encode(), self.buffers());
        let mut told = Vec::new();
        let answer = lent.lend(solve, &bytes);
        self.tell(&mut told, &lent, answer, [0, 0]);
        let halves = lent.lend_cut(cut, &bytes, &self.sides);
        self.tell(
            &mut told,
            &lent,
            halves.answer,
            [halves.first, halves.second],
        );
        told
    }

    /// Adds an answer: number, place, count, half sizes, and what it lists.
    fn tell(&self, told: &mut Vec<u8>, lent: &Buffers, answer: Answer, sizes: [u32; 2]) {
        let count = answer.count as usize;
        let costs = &lent.costs[..count * self.problem.objectives()];
        told.push(answer.number);
        for number in [&[answer.place, answer.count], &sizes[..], costs].concat() {
            told.extend(number.to_le_bytes());
        }
        told.extend(&lent.choices[..count * self.problem.variables()]);
    }

    /// Whether some choice meets a forbidden entry, and would keep to the ceilings if that cost nothing.
    pub fn forbids(&self) -> bool {
        let mut free = self.problem.clone();
        for table in &mut free.tables {
            for cost in &mut table.costs {
                *cost %= FORBIDDEN; // a forbidden one becomes 0, and others stay
            }
        }
        let variables: Vec<usize> = (0..free.variables()).collect();
        let mut choice = vec![0; free.variables()];
        loop {
            let (costs, less) = (
                plain_costs(&self.problem, &choice),
                plain_costs(&free, &choice),
            );
            let mut pairs = less.iter().zip(&free.ceilings);
            if costs != less && pairs.all(|(&cost, &ceiling)| cost <= u64::from(ceiling)) {
                return true;
            }
            if !next_choice(&mut choice, &free.domains, &variables) {
                return false;
            }
        }
    }
}

/// The problem with each ceiling one larger; none where one is the greatest already.
pub fn raised(mut problem: Problem) -> Option<Problem> {
    for ceiling in &mut problem.ceilings {
        *ceiling = ceiling.checked_add(1)?;
    }
    Some(problem)
}

/// The digest of what two calls answer to a thousand problems, which may be asked under ceilings one larger.
pub fn digest(thousand: u64, raised: bool, solve: SolveCall, cut: CutCall) -> u64 {
    let numbers = thousand * PROBLEMS..(thousand + 1) * PROBLEMS;
    let answered = numbers.flat_map(|number| match raised {
        true => Case::new(number).raised().answered(solve, cut),
        false => Case::new(number).answered(solve, cut),
    });
    fnv_1a(answered)
}

/// The costs of a choice.
fn plain_costs(problem: &Problem, choice: &[u8]) -> Vec<u64> {
    let tables: Vec<&Table> = problem.tables.iter().collect();
    cost_vector(problem, &tables, choice)
}

/// A random problem and a side list. In two problems of three no scope has both sides.
fn random_problem(rng: &mut Rng) -> (Problem, Vec<u8>) {
    let objectives = 1 + rng.below(MAX_OBJECTIVES);
    let domains = random_domains(rng);
    let (parted, coins) = (!rng.once_in(3), rng.bits());
    let mixed: Vec<u8> = (0..domains.len()).map(|v| (coins >> v & 1) as u8).collect();
    let alike = vec![rng.byte_below(2); domains.len()];
    let sides = if rng.once_in(8) { alike } else { mixed };
    let (values, forbidden) = random_entries(rng);
    let mut problem = Problem {
        ceilings: vec![0; objectives],
        domains,
        tables: Vec::new(),
    };
    for _ in 0..rng.mostly_high(9) {
        let side = parted.then(|| rng.byte_below(2));
        let mut table = random_table(rng, &problem, &sides, side);
        table
            .costs
            .fill_with(|| match forbidden > 0 && rng.once_in(forbidden) {
                true => FORBIDDEN,
                false => rng.pick(&values),
            });
        if !rng.once_in(4) {
            problem.tables.push(opposed(rng, objectives, &table));
        }
        problem.tables.push(table);
    }
    problem.ceilings = random_ceilings(rng, &problem);
    (problem, sides)
}

/// The sizes of 1 to 6 domains.
fn random_domains(rng: &mut Rng) -> Vec<u8> {
    let mut product = 1;
    let mut domains = Vec::new();
    for _ in 0..1 + rng.mostly_high(6) {
        let size = 1 + rng.mostly_high((CHOICES / product).min(4));
        product *= size;
        domains.push(size as u8);
    }
    rng.shuffle(&mut domains);
    domains
}

/// What a problem's entries are drawn from, and that one in so many is forbidden; 0 for none.
fn random_entries(rng: &mut Rng) -> (Vec<u32>, usize) {
    let last = rng.pick(&[1, 3, 9, 40]);
    let step = rng.pick(&[1, 1, 1, 0x100, 0x1_0001, 0x10_0000]);
    let values = match rng.below(8) {
        0 => vec![0, 1, 2, GREATEST - 1, GREATEST],
        1 => vec![0, 1, 0x7fff_ffff, 0x8000_0000, GREATEST],
        _ => (0..=last).map(|value| value * step).collect(),
    };
    (values, rng.pick(&[0, 0, 20, 6]))
}

/// A table over at most three variables, in any order, all of one side if one is given.
fn random_table(rng: &mut Rng, problem: &Problem, sides: &[u8], side: Option<u8>) -> Table {
    let among = |v: &u8| side.is_none_or(|side| sides[usize::from(*v)] == side);
    let mut scope: Vec<u8> = (0..sides.len() as u8).filter(among).collect();
    rng.shuffle(&mut scope);
    scope.truncate(rng.mostly_high(MAX_ARITY + 1));
    let size = |v: &u8| usize::from(problem.domains[usize::from(*v)]);
    Table {
        objective: rng.below(problem.objectives()) as u8,
        costs: vec![0; scope.iter().map(size).product()],
        scope,
    }
}

/// The table with its entries from the other end, for another objective if there is one, so that lists have
/// several points.
fn opposed(rng: &mut Rng, objectives: usize, table: &Table) -> Table {
    let step = 1 + rng.below(objectives.max(2) - 1);
    Table {
        objective: ((usize::from(table.objective) + step) % objectives) as u8,
        scope: table.scope.clone(),
        costs: table.costs.iter().rev().copied().collect(),
    }
}

/// Random ceilings. In two problems of three at most one binds, since several leave few choices.
fn random_ceilings(rng: &mut Rng, problem: &Problem) -> Vec<u32> {
    let (all, one) = (rng.once_in(3), rng.below(2 * problem.objectives()));
    let costs = met_costs(rng, problem).into_iter().enumerate();
    let ceilings =
        costs.map(|(objective, cost)| random_ceiling(rng, cost, all || objective == one));
    ceilings.collect()
}

/// A ceiling far above this cost, or one that may bind: 0, the cost itself, or beside it.
fn random_ceiling(rng: &mut Rng, cost: u64, binds: bool) -> u32 {
    let ceiling = match rng.below(if binds { 12 } else { 3 }) {
        0 => 2 * cost + 10,
        1 => u64::from(GREATEST - 1),
        2 => u64::from(GREATEST),
        3 => 0,
        4 => cost.saturating_sub(1),
        5 => cost + 1,
        _ => cost,
    };
    ceiling.min(u64::from(GREATEST)) as u32
}

/// The costs of a random choice, mostly of one that no entry forbids.
fn met_costs(rng: &mut Rng, problem: &Problem) -> Vec<u64> {
    let mut costs = Vec::new();
    for _ in 0..4 {
        let domains = problem.domains.iter();
        let choice: Vec<u8> = domains.map(|&size| rng.byte_below(size)).collect();
        costs = plain_costs(problem, &choice);
        if costs.iter().all(|&cost| cost < u64::from(FORBIDDEN)) {
            break;
        }
    }
    costs
}
