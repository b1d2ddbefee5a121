//! A problem as plain vectors, and its record bytes.

use crate::lent::bound_prefix;
use crate::refusal::{check, Refusal};

/// The entry that forbids its combination under every ceiling: a choice that meets it is not allowed.
pub const FORBIDDEN: u32 = 4_294_967_295;

/// A cost record: one objective's costs over a scope. The variable that stands last in the scope runs
/// fastest.
#[derive(Clone, Debug, PartialEq, Eq)]
pub struct Table {
    /// The objective, from 0, that the costs are of.
    pub objective: u8,
    /// The variables, from 0, that the costs depend on: at most three, each once, in any order.
    pub scope: Vec<u8>,
    /// A cost for each combination of the variables' values.
    pub costs: Vec<u32>,
}

impl Table {
    /// A table from slices, so that examples can be written as literals.
    pub fn new(objective: u8, scope: &[u8], costs: &[u32]) -> Table {
        Table {
            objective,
            scope: scope.to_vec(),
            costs: costs.to_vec(),
        }
    }
}

/// A problem: p ceilings, n domain sizes, r tables.
#[derive(Clone, Debug, PartialEq, Eq)]
pub struct Problem {
    /// The ceiling of each objective: the greatest cost that is allowed.
    pub ceilings: Vec<u32>,
    /// How many values each variable has.
    pub domains: Vec<u8>,
    /// The cost records. The cost of a choice in an objective is the sum over its tables.
    pub tables: Vec<Table>,
}

impl Problem {
    /// n, the number of variables.
    pub fn variables(&self) -> usize {
        self.domains.len()
    }

    /// p, the number of objectives.
    pub fn objectives(&self) -> usize {
        self.ceilings.len()
    }

    /// How many complete choices there are, or the greatest number of 64 bits if they are more.
    pub fn choices(&self) -> u64 {
        let times = |product: u64, &size: &u8| product.saturating_mul(size.into());
        self.domains.iter().fold(1, times)
    }

    /// The record bytes. Nothing is checked, so that tests can build invalid problems too; a
    /// length that does not fit its field is cut to the field's low bits.
    pub fn encode(&self) -> Vec<u8> {
        let mut bytes = b"HD".to_vec();
        bytes.push(self.variables() as u8);
        bytes.push(self.objectives() as u8);
        bytes.extend((self.tables.len() as u16).to_le_bytes());
        for ceiling in &self.ceilings {
            bytes.extend(ceiling.to_le_bytes());
        }
        for &domain in &self.domains {
            bytes.extend([b'D', b'O', domain]);
        }
        for table in &self.tables {
            bytes.extend([b'C', b'F', table.objective, table.scope.len() as u8]);
            bytes.extend(&table.scope);
            for cost in &table.costs {
                bytes.extend(cost.to_le_bytes());
            }
        }
        bytes
    }

    /// The problem in record bytes, or the refusal that every call gives them.
    ///
    /// ```
    /// use frontier::{Problem, Refusal, Table};
    ///
    /// let problem = Problem {
    ///     ceilings: vec![9],
    ///     domains: vec![2],
    ///     tables: vec![Table::new(0, &[0], &[3, 4])],
    /// };
    /// let bytes = problem.encode();
    /// assert_eq!(Problem::decode(&bytes), Ok(problem));
    /// assert_eq!(Problem::decode(&bytes[..20]), Err(Refusal::CutShort(13)));
    /// ```
    pub fn decode(bytes: &[u8]) -> Result<Problem, Refusal> {
        // The library reads the bytes, by the call that does little more, so that what is refused
        // and why stands nowhere twice.
        let read = bound_prefix(bytes, &[]);
        check(read.number, read.place)?;
        Ok(Records { rest: bytes }.problem())
    }
}

/// p and n of bytes that the library has accepted.
pub(crate) fn sizes(bytes: &[u8]) -> [usize; 2] {
    [bytes[3], bytes[2]].map(usize::from)
}

/// What is still to be read of bytes that the library has accepted, so that nothing is missing.
struct Records<'a> {
    rest: &'a [u8],
}

impl<'a> Records<'a> {
    fn take(&mut self, count: usize) -> &'a [u8] {
        let (taken, rest) = self.rest.split_at(count);
        self.rest = rest;
        taken
    }

    /// The next `count` four-byte numbers.
    fn numbers(&mut self, count: usize) -> Vec<u32> {
        let number = |b: &[u8]| u32::from_le_bytes([b[0], b[1], b[2], b[3]]);
        self.take(4 * count).chunks_exact(4).map(number).collect()
    }

    fn problem(mut self) -> Problem {
        let head = self.take(6);
        let tables = u16::from_le_bytes([head[4], head[5]]);
        let ceilings = self.numbers(head[3].into());
        let domains: Vec<u8> = (0..head[2]).map(|_| self.take(3)[2]).collect();
        let tables = (0..tables).map(|_| self.table(&domains)).collect();
        Problem {
            ceilings,
            domains,
            tables,
        }
    }

    fn table(&mut self, domains: &[u8]) -> Table {
        let head = self.take(4);
        let scope = self.take(head[3].into()).to_vec();
        let size = |v: &u8| usize::from(domains[usize::from(*v)]);
        let costs = self.numbers(scope.iter().map(size).product());
        Table {
            objective: head[2],
            scope,
            costs,
        }
    }
}
