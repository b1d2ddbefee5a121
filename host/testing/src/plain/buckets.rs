//! Buckets: for each position of the search order, the cost functions whose last variable in that
//! order stands there.

use super::directions::{Directions, Vector};
use super::order::{has, scope_set, VariableSet};
use frontier::limits::{MAX_DOMAIN, MAX_VARIABLES};
use frontier::{Problem, Table, FORBIDDEN};

/// A value for each variable; those that have none yet are not read.
pub type Values = [u8; MAX_VARIABLES];

/// A vector for each value of a bucket's variable.
pub type Rows<const D: usize> = [Vector<D>; MAX_DOMAIN];

/// A variable, and how far apart the entries of its neighbouring values are.
#[derive(Clone, Copy, Default)]
struct Term {
    variable: usize,
    stride: usize,
}

/// A function of a bucket's own variable and at most two earlier ones: the tables with one scope,
/// added up, or a message.
pub struct Function<const D: usize> {
    /// The earlier variables.
    pub earlier: VariableSet,
    /// The same with their strides; unused terms have the stride 0.
    terms: [Term; 2],
    /// The own variable runs fastest.
    pub entries: Vec<Vector<D>>,
}

impl<const D: usize> Function<D> {
    /// The function that is 0 everywhere. `earlier` are at most two variables, the last of which
    /// runs faster.
    pub fn zero(own: usize, earlier: &[usize], sizes: &[usize]) -> Function<D> {
        let mut stride = sizes[own];
        let mut terms = [Term::default(); 2];
        let mut set = 0;
        for (term, &variable) in terms.iter_mut().zip(earlier).rev() {
            *term = Term { variable, stride };
            stride *= sizes[variable];
            set |= 1 << variable;
        }
        Function {
            earlier: set,
            terms,
            entries: vec![[0; D]; stride],
        }
    }

    /// Where the entries for the earlier variables' values start.
    fn row_start(&self, values: &Values) -> usize {
        let [one, two] = self.terms;
        usize::from(values[one.variable]) * one.stride
            + usize::from(values[two.variable]) * two.stride
    }

    /// Adds the entries of the own variable's values to their rows.
    pub fn add_row(&self, values: &Values, rows: &mut [Vector<D>]) {
        let start = self.row_start(values);
        let entries = &self.entries[start..start + rows.len()];
        for (row, entry) in rows.iter_mut().zip(entries) {
            for (number, cost) in row.iter_mut().zip(entry) {
                *number += cost;
            }
        }
    }

    /// The entry for the own and the earlier variables' values.
    pub fn entry(&self, own: usize, values: &Values) -> &Vector<D> {
        &self.entries[self.row_start(values) + usize::from(values[own])]
    }

    /// Adds a table over the own variable and exactly these earlier ones.
    fn add_table(&mut self, table: &Table, sizes: &[usize]) {
        for (index, &cost) in table.costs.iter().enumerate() {
            let (mut rest, mut place) = (index, 0);
            for &v in table.scope.iter().rev() {
                let variable = usize::from(v);
                place += rest % sizes[variable] * self.stride_of(variable);
                rest /= sizes[variable];
            }
            self.entries[place][usize::from(table.objective)] += weight(cost);
        }
    }

    fn stride_of(&self, variable: usize) -> usize {
        let mut terms = self.terms.iter().filter(|term| term.stride > 0);
        let term = terms.find(|term| term.variable == variable);
        term.map_or(1, |term| term.stride)
    }
}

/// A position's bucket.
pub struct Bucket<const D: usize> {
    pub variable: usize,
    pub size: usize,
    /// Tables first, in the order of their records, and then the messages received.
    pub functions: Vec<Function<D>>,
    /// What the bucket sends besides messages: a constant of every choice.
    pub constant: Vector<D>,
    /// The messages sent: the position that received each, and its number among the functions
    /// there.
    pub sent: Vec<(usize, usize)>,
}

/// What an entry counts: its cost, and a forbidden one more than every ceiling.
fn weight(entry: u32) -> u64 {
    match entry {
        FORBIDDEN => 1 << 32,
        cost => cost.into(),
    }
}

/// The buckets of a problem with its tables, in search order, and the sum of what no variable
/// decides.
pub fn fill_buckets<const D: usize>(
    problem: &Problem,
    order: &[usize],
    directions: &Directions,
) -> (Vec<Bucket<D>>, Vector<D>) {
    let sizes = domain_sizes(problem);
    let empty = |&variable: &usize| Bucket {
        variable,
        size: sizes[variable],
        functions: Vec::new(),
        constant: [0; D],
        sent: Vec::new(),
    };
    let mut buckets: Vec<Bucket<D>> = order.iter().map(empty).collect();
    let mut base = [0; D];
    for table in &problem.tables {
        let scope = scope_set(&table.scope);
        let last = order.iter().rposition(|&variable| has(scope, variable));
        match last {
            Some(position) => buckets[position].add_table(table, &sizes),
            None => base[usize::from(table.objective)] += weight(table.costs[0]),
        }
    }
    for function in buckets.iter_mut().flat_map(|bucket| &mut bucket.functions) {
        for entry in &mut function.entries {
            *entry = directions.with_sums(*entry);
        }
    }
    (buckets, directions.with_sums(base))
}

pub fn domain_sizes(problem: &Problem) -> Vec<usize> {
    problem.domains.iter().map(|&size| size.into()).collect()
}

impl<const D: usize> Bucket<D> {
    /// Adds a table, to the function with its scope if there is one.
    fn add_table(&mut self, table: &Table, sizes: &[usize]) {
        let own = self.variable;
        let scope = table.scope.iter().map(|&v| usize::from(v));
        let earlier: Vec<usize> = scope.filter(|&v| v != own).collect();
        let set = scope_set(&table.scope) & !(1 << own);
        let mut functions = self.functions.iter();
        let number = functions.position(|f| f.earlier == set);
        let number = number.unwrap_or_else(|| {
            self.functions.push(Function::zero(own, &earlier, sizes));
            self.functions.len() - 1
        });
        self.functions[number].add_table(table, sizes);
    }
}
