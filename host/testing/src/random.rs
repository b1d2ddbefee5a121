//! A seeded generator of small random problems, side lists, and damage to bytes.

use crate::brute::cost_vector;
use chooser::junk::Rng;
use frontier::{Problem, Table, FORBIDDEN};

/// The greatest sizes a random problem may have.
pub struct Shape {
    pub objectives: usize,
    pub variables: usize,
    pub domain: u8,
    pub arity: usize,
    pub tables: usize,
    /// The greatest number of complete choices.
    pub choices: usize,
}

impl Shape {
    /// Small enough that thousands of problems can be enumerated.
    pub fn small() -> Shape {
        Shape {
            objectives: 4,
            variables: 6,
            domain: 4,
            arity: 3,
            tables: 12,
            choices: 200,
        }
    }

    /// As small, but with up to all 24 variables, most of which then have one value.
    pub fn many_variables() -> Shape {
        Shape {
            variables: 24,
            domain: 8,
            tables: 20,
            ..Shape::small()
        }
    }

    /// Every size up to its limit, except that there are few tables. Too many choices for the
    /// calls that go through them; the bound call does not.
    pub fn wide() -> Shape {
        Shape {
            objectives: 4,
            variables: 24,
            domain: 8,
            arity: 3,
            tables: 12,
            choices: 1 << 62,
        }
    }
}

/// How the entries of one problem's tables are drawn.
struct Entries {
    /// The ordinary entries; few different ones, so that many choices tie.
    values: Vec<u32>,
    /// One entry in this many is forbidden; 0 for none.
    forbidden: usize,
}

impl Entries {
    /// Mostly small entries. Multiples of 256 powers tell whether all four bytes of a number
    /// are used, and the wide ones have sums of exactly 2^32 - 1, and of more.
    fn random(rng: &mut Rng) -> Entries {
        let last = rng.pick(&[1, 2, 3, 3, 9, 40]);
        let scale = rng.pick(&[1, 1, 1, 1, 0x100, 0x1_0000, 0x100_0000]);
        let wide = [0, 1, 0x7fff_ffff, 0x8000_0000, FORBIDDEN - 1];
        let values = if rng.once_in(6) {
            wide.to_vec()
        } else {
            (0..=last).map(|value| value * scale).collect()
        };
        Entries {
            values,
            forbidden: rng.pick(&[0, 0, 0, 30, 5]),
        }
    }

    fn draw(&self, rng: &mut Rng) -> u32 {
        if self.forbidden > 0 && rng.once_in(self.forbidden) {
            return FORBIDDEN;
        }
        rng.pick(&self.values)
    }
}

/// Unequal domain sizes whose product stays within the shape.
fn random_domains(rng: &mut Rng, shape: &Shape) -> Vec<u8> {
    let mut product = 1;
    let mut domains = Vec::new();
    for _ in 0..1 + rng.mostly_high(shape.variables) {
        let most = usize::from(shape.domain).min(shape.choices / product);
        let size = 1 + rng.mostly_high(most);
        product *= size;
        // Anywhere, so that it is not always the last domains that are small.
        domains.insert(rng.below(domains.len() + 1), size as u8);
    }
    domains
}

/// A scope of at most `arity` of the given variables, in any order.
fn random_scope(rng: &mut Rng, variables: &[u8], arity: usize) -> Vec<u8> {
    let mut rest = variables.to_vec();
    for _ in rng.mostly_high(arity + 1)..variables.len() {
        rest.remove(rng.below(rest.len()));
    }
    rng.shuffle(&mut rest);
    rest
}

/// Ceilings 0, 1, at the cost of some choice or beside it, loose, or at the greatest or beside it. In every
/// second problem they are generous in all objectives, since several tight ones leave few choices.
fn random_ceilings(rng: &mut Rng, problem: &Problem) -> Vec<u32> {
    let choice = random_choice(rng, problem);
    let tables: Vec<&Table> = problem.tables.iter().collect();
    let costs = cost_vector(problem, &tables, &choice);
    let least = 8 * rng.below(2);
    let narrow = |sum: u64| sum.min(u64::from(FORBIDDEN)) as u32;
    let ceiling = |cost: u64, rng: &mut Rng| match least + rng.below(20 - least) {
        0 => 0,
        1 => 1,
        2..=7 => narrow((cost + rng.below(3) as u64).saturating_sub(1)),
        8..=13 => narrow(cost * 2 + 10),
        _ => rng.pick(&[FORBIDDEN, FORBIDDEN, FORBIDDEN - 1]),
    };
    costs.iter().map(|&cost| ceiling(cost, rng)).collect()
}

/// A random complete choice.
pub fn random_choice(rng: &mut Rng, problem: &Problem) -> Vec<u8> {
    let domains = problem.domains.iter();
    domains.map(|&size| rng.byte_below(size)).collect()
}

/// A table over some of the given variables.
fn random_table(rng: &mut Rng, shape: &Shape, problem: &Problem, members: &[u8]) -> Table {
    let scope = random_scope(rng, members, shape.arity);
    let size = |v: &u8| usize::from(problem.domains[usize::from(*v)]);
    Table {
        objective: rng.below(problem.objectives()) as u8,
        costs: vec![0; scope.iter().map(size).product()],
        scope,
    }
}

/// The same table for another objective with its entries from the other end: what is cheap
/// there is dear here, so that the frontier has several points.
fn opposed(rng: &mut Rng, objectives: usize, table: &Table) -> Table {
    let step = 1 + rng.below(objectives.max(2) - 1);
    Table {
        objective: ((usize::from(table.objective) + step) % objectives) as u8,
        scope: table.scope.clone(),
        costs: table.costs.iter().rev().copied().collect(),
    }
}

/// A random valid problem. Every second one keeps its scopes within two groups of variables, so
/// that it has a cut worth making.
pub fn random_problem(rng: &mut Rng, shape: &Shape) -> Problem {
    grouped_problem(rng, shape, false).0
}

/// A random valid problem that always has such groups, and the side list that parts them. Its
/// tables are opposed, so that both halves often have several points.
pub fn parted_problem(rng: &mut Rng, shape: &Shape) -> (Problem, Vec<u8>) {
    grouped_problem(rng, shape, true)
}

/// A random valid problem, in one or two groups of variables or surely in two, and the group of
/// each variable.
fn grouped_problem(rng: &mut Rng, shape: &Shape, parted: bool) -> (Problem, Vec<u8>) {
    let objectives = 1 + rng.below(shape.objectives);
    let domains = random_domains(rng, shape);
    let groups = if parted { 2 } else { 1 + rng.byte_below(2) };
    let group_of: Vec<u8> = domains.iter().map(|_| rng.byte_below(groups)).collect();
    let entries = Entries::random(rng);
    let opposing = parted || rng.once_in(2);
    let mut problem = Problem {
        ceilings: vec![0; objectives],
        domains,
        tables: Vec::new(),
    };
    let count = rng.mostly_high(shape.tables + 1);
    while problem.tables.len() < count {
        let group = rng.byte_below(groups);
        let members: Vec<u8> = (0..group_of.len() as u8)
            .filter(|&v| group_of[usize::from(v)] == group)
            .collect();
        let mut table = random_table(rng, shape, &problem, &members);
        table.costs.fill_with(|| entries.draw(rng));
        if opposing {
            problem.tables.push(opposed(rng, objectives, &table));
        }
        problem.tables.push(table);
    }
    problem.ceilings = random_ceilings(rng, &problem);
    if rng.once_in(10) {
        meet_the_greatest_ceiling(rng, &mut problem);
    }
    (problem, group_of)
}

/// Gives one objective the greatest ceiling, and as its only costs a charge of 0 or 1 and a table over at most one
/// variable. Its greatest entry costs just the ceiling with the charge; without a charge it is forbidden.
fn meet_the_greatest_ceiling(rng: &mut Rng, problem: &mut Problem) {
    let objective = rng.below(problem.objectives());
    let variable = rng.below(problem.variables());
    let (scope, size) = match rng.once_in(2) {
        true => (Vec::new(), 1),
        false => (vec![variable as u8], problem.domains[variable]),
    };
    let charge = rng.below(2) as u32;
    let costs = (0..size).map(|_| rng.pick(&[0, FORBIDDEN - charge]));
    let table = Table {
        objective: objective as u8,
        scope,
        costs: costs.collect(),
    };
    problem
        .tables
        .retain(|other| other.objective != table.objective);
    problem
        .tables
        .push(Table::new(table.objective, &[], &[charge]));
    problem.tables.push(table);
    problem.ceilings[objective] = FORBIDDEN;
}

/// For each variable the least variable that tables connect it with.
pub fn components(problem: &Problem) -> Vec<usize> {
    let mut labels: Vec<usize> = (0..problem.variables()).collect();
    // Each round carries labels one table further; n rounds reach everything.
    for _ in 0..problem.variables() {
        for table in &problem.tables {
            let members = table.scope.iter().map(|&v| usize::from(v));
            let least = members.clone().map(|v| labels[v]).min().unwrap_or(0);
            members.for_each(|v| labels[v] = least);
        }
    }
    labels
}

/// A side list that no table crosses: a side for each connected component.
pub fn uncrossed_sides(rng: &mut Rng, problem: &Problem) -> Vec<u8> {
    let coins = rng.bits();
    let labels = components(problem);
    labels.iter().map(|&l| (coins >> l & 1) as u8).collect()
}

/// A side for each variable, crossed or not.
pub fn random_sides(rng: &mut Rng, problem: &Problem) -> Vec<u8> {
    problem.domains.iter().map(|_| rng.byte_below(2)).collect()
}

/// A side list that 13 refuses: too short, too long, or with a byte above 1.
pub fn bad_sides(rng: &mut Rng, problem: &Problem) -> Vec<u8> {
    let mut sides = random_sides(rng, problem);
    match rng.below(3) {
        0 => sides.truncate(rng.below(sides.len())),
        1 => sides.push(rng.byte_below(3)),
        _ => {
            let place = rng.below(sides.len());
            sides[place] = rng.pick(&[2, 3, 128, 255]);
        }
    }
    sides
}

/// Damages bytes once: truncates, flips, appends, removes, or puts a field at or beside a limit.
pub fn damage(rng: &mut Rng, bytes: &mut Vec<u8>) {
    let limits = [0, 1, 2, 3, 4, 5, 8, 9, 24, 25, 255];
    let place = rng.below(bytes.len().max(1));
    match rng.below(7) {
        0 => bytes.truncate(place),
        1 => bytes.extend((0..1 + rng.below(4)).map(|_| rng.bits() as u8)),
        _ if bytes.is_empty() => bytes.push(rng.bits() as u8),
        2 => bytes[place] ^= 1 << rng.below(8),
        3 => bytes[place] = rng.bits() as u8,
        4 => bytes[place] = rng.pick(&limits),
        // The first bytes hold the fields of the header.
        5 => bytes[place.min(2 + rng.below(4))] = rng.pick(&limits),
        _ => {
            bytes.remove(place);
        }
    }
}
