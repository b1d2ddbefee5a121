//! What a WCSP text says, read whole, and its records where it is within the limits.
//!
//! ```text
//! text     := name variables largest functions bound size* function*
//! function := arity variable* default tuples (value* cost)*
//! ```

use super::numbers::{words, Natural, Term};
use frontier::limits::{MAX_ARITY, MAX_BYTES, MAX_DOMAIN, MAX_TABLES, MAX_VARIABLES};
use frontier::{Problem, Refusal, Table};

/// A text's content: numbers of any length, and as many of everything as there are words.
pub struct Network {
    bound: Natural,
    sizes: Vec<Natural>,
    functions: Vec<Function>,
}

/// A cost function: what a tuple costs, and the default for all others.
struct Function {
    scope: Vec<Natural>,
    default: Natural,
    tuples: Vec<Tuple>,
}

struct Tuple {
    values: Vec<Natural>,
    cost: Natural,
}

/// The words that are not read yet.
struct Reader<I>(I);

impl<'a, I: Iterator<Item = &'a [u8]>> Reader<I> {
    fn term(&mut self) -> Result<Term, Refusal> {
        self.0.next().and_then(Term::of).ok_or(Refusal::Text)
    }

    /// A number of which the format has no negative one: of variables or functions, the largest domain,
    /// a variable, a value.
    fn count(&mut self) -> Result<Natural, Refusal> {
        match self.term()? {
            Term::Natural(natural) => Ok(natural),
            Term::Negative => Err(Refusal::Text),
        }
    }

    /// An arity, domain size, cost, bound or number of tuples: a negative one is content that is refused,
    /// and nothing behind it is read.
    fn field(&mut self) -> Result<Natural, Refusal> {
        match self.term()? {
            Term::Natural(natural) => Ok(natural),
            Term::Negative => Err(Refusal::Dialect),
        }
    }

    /// A variable or a value, which must be one of so many.
    fn one_of(&mut self, declared: &Natural) -> Result<Natural, Refusal> {
        let number = self.count()?;
        match number < *declared {
            true => Ok(number),
            false => Err(Refusal::Text),
        }
    }

    /// The domain sizes, the largest of which is stated; of none it is 0.
    fn sizes(&mut self, variables: &Natural, largest: &Natural) -> Result<Vec<Natural>, Refusal> {
        let mut sizes = Vec::new();
        for _ in 0..variables.times() {
            let size = self.field()?;
            if size > *largest {
                return Err(Refusal::Text);
            }
            sizes.push(size);
        }
        match sizes.iter().max().unwrap_or(&Natural::zero()) == largest {
            true => Ok(sizes),
            false => Err(Refusal::Text),
        }
    }

    fn function(&mut self, variables: &Natural, sizes: &[Natural]) -> Result<Function, Refusal> {
        let arity = self.field()?;
        let mut scope = Vec::new();
        for _ in 0..arity.times() {
            scope.push(self.one_of(variables)?);
        }
        let default = self.field()?;
        let count = self.field()?;
        if scope.is_empty() && count > Natural::zero() {
            return Err(Refusal::Text);
        }
        let mut tuples = Vec::new();
        for _ in 0..count.times() {
            tuples.push(self.tuple(&scope, sizes)?);
        }
        Ok(Function {
            scope,
            default,
            tuples,
        })
    }

    fn tuple(&mut self, scope: &[Natural], sizes: &[Natural]) -> Result<Tuple, Refusal> {
        let mut values = Vec::new();
        for variable in scope {
            let variable = variable
                .small()
                .expect("below the number of sizes that were read");
            values.push(self.one_of(&sizes[variable as usize])?);
        }
        let cost = self.field()?;
        Ok(Tuple { values, cost })
    }
}

impl Network {
    /// Reads a whole text: 17 where it is no such text, 18 for the first negative number of the listed ones.
    pub fn read(text: &[u8]) -> Result<Network, Refusal> {
        let mut reader = Reader(words(text));
        let _name = reader.0.next().ok_or(Refusal::Text)?;
        let variables = reader.count()?;
        let largest = reader.count()?;
        let functions = reader.count()?;
        let bound = reader.field()?;
        let sizes = reader.sizes(&variables, &largest)?;
        let mut read = Vec::new();
        for _ in 0..functions.times() {
            read.push(reader.function(&variables, &sizes)?);
        }
        match reader.0.next() {
            Some(_) => Err(Refusal::Text),
            None => Ok(Network {
                bound,
                sizes,
                functions: read,
            }),
        }
    }

    /// The records, or 18 where the content is outside the limits or gives something twice.
    pub fn records(&self) -> Result<Vec<u8>, Refusal> {
        let records = self.problem().ok_or(Refusal::Dialect)?.encode();
        match records.len() <= MAX_BYTES {
            true => Ok(records),
            false => Err(Refusal::Dialect),
        }
    }

    fn problem(&self) -> Option<Problem> {
        let is_within =
            (1..=MAX_VARIABLES).contains(&self.sizes.len()) && self.functions.len() <= MAX_TABLES;
        if !is_within {
            return None;
        }
        let domains: Option<Vec<u8>> = self.sizes.iter().map(domain).collect();
        let domains = domains?;
        let tables = self
            .functions
            .iter()
            .map(|function| function.table(&domains));
        Some(Problem {
            // The bound is strict, so that the greatest cost that is allowed is one less.
            ceilings: vec![cost(&self.bound)?.checked_sub(1)?],
            tables: tables.collect::<Option<Vec<Table>>>()?,
            domains,
        })
    }
}

impl Function {
    /// Its record, if it has at most three variables, no cost that is too large, and nothing twice.
    fn table(&self, domains: &[u8]) -> Option<Table> {
        let tuples = || self.tuples.iter().map(|tuple| &tuple.values);
        if self.scope.len() > MAX_ARITY || !all_differ(self.scope.iter()) || !all_differ(tuples()) {
            return None;
        }
        let scope: Vec<u8> = self.scope.iter().map(byte).collect();
        let sizes: Vec<usize> = scope
            .iter()
            .map(|&v| domains[usize::from(v)].into())
            .collect();
        let mut costs = vec![cost(&self.default)?; sizes.iter().product()];
        for tuple in &self.tuples {
            let place = |index: usize, (value, size): (&Natural, &usize)| {
                index * size + usize::from(byte(value))
            };
            let index = tuple.values.iter().zip(&sizes).fold(0, place);
            costs[index] = cost(&tuple.cost)?;
        }
        Some(Table {
            objective: 0,
            scope,
            costs,
        })
    }
}

/// A domain size within its limits.
fn domain(size: &Natural) -> Option<u8> {
    let size = size
        .small()
        .filter(|size| (1..=MAX_DOMAIN as u64).contains(size));
    size.map(|size| size as u8)
}

/// A cost or bound of at most 4,294,967,295.
fn cost(number: &Natural) -> Option<u32> {
    number.small().and_then(|number| number.try_into().ok())
}

/// A variable or a value, which is below a limit that a byte can tell.
fn byte(number: &Natural) -> u8 {
    let small = number.small().and_then(|number| number.try_into().ok());
    small.expect("below 24, or below 8")
}

/// Whether no item stands twice.
fn all_differ<T: Ord>(items: impl Iterator<Item = T>) -> bool {
    let mut sorted: Vec<T> = items.collect();
    sorted.sort();
    sorted.windows(2).all(|pair| pair[0] != pair[1])
}
