//! Texts in any layout, written by a generator that shares nothing with the converter: what a text says is
//! drawn first, then how it is written; what a choice costs by it, and whether it is a solution, is told by the
//! format's own words.

use crate::brute::next_choice;
use chooser::junk::Rng;
use frontier::{Problem, Table};

/// What a text says.
#[derive(Clone, Debug)]
pub struct Said {
    /// The upper bound: what costs as much or more is no solution.
    pub bound: u64,
    pub sizes: Vec<u8>,
    pub functions: Vec<Function>,
}

/// A cost function: tuples with a cost each, and the default cost of all others.
#[derive(Clone, Debug)]
pub struct Function {
    pub scope: Vec<u8>,
    pub default: u32,
    pub tuples: Vec<(Vec<u8>, u32)>,
}

impl Said {
    /// One of the many texts that say a problem with one objective: any default, tuples in any order, some of
    /// them equal to the default. The bound is one above the ceiling, so that a text with the greatest ceiling
    /// is refused.
    pub fn of(rng: &mut Rng, problem: &Problem) -> Said {
        let functions = problem.tables.iter();
        let functions = functions.map(|table| Function::of(rng, table, &problem.domains));
        Said {
            bound: u64::from(problem.ceilings[0]) + 1,
            functions: functions.collect(),
            sizes: problem.domains.clone(),
        }
    }

    /// What a choice costs: of each function the cost of the tuple that it has, or else the default.
    pub fn cost(&self, choice: &[u8]) -> u64 {
        let functions = self.functions.iter();
        functions
            .map(|function| u64::from(function.cost(choice)))
            .sum()
    }

    /// Whether a choice is a solution.
    pub fn allows(&self, choice: &[u8]) -> bool {
        self.cost(choice) < self.bound
    }

    /// The words of the text, each number written in one of many ways.
    pub fn words(&self, rng: &mut Rng) -> Vec<String> {
        let largest = self.sizes.iter().copied().max().unwrap_or(0);
        let mut numbers = vec![
            self.sizes.len() as u64,
            largest.into(),
            self.functions.len() as u64,
            self.bound,
        ];
        numbers.extend(self.sizes.iter().copied().map(u64::from));
        for function in &self.functions {
            numbers.push(function.scope.len() as u64);
            numbers.extend(function.scope.iter().copied().map(u64::from));
            numbers.extend([function.default.into(), function.tuples.len() as u64]);
            for (values, cost) in &function.tuples {
                numbers.extend(values.iter().copied().map(u64::from));
                numbers.push((*cost).into());
            }
        }
        let mut words = vec![rng
            .pick(&["P", "a_name", "-1", "007", "\u{e9}", "#"])
            .into()];
        let odd = rng.pick(&[2, 10, 1 << 30]);
        words.extend(numbers.iter().map(|&number| numeral(rng, number, odd)));
        words
    }

    /// The text, laid out in one of many ways.
    pub fn text(&self, rng: &mut Rng) -> Vec<u8> {
        let words = self.words(rng);
        laid_out(rng, &words)
    }
}

impl Function {
    fn of(rng: &mut Rng, table: &Table, domains: &[u8]) -> Function {
        let scope = table.scope.clone();
        let entry = table.costs[rng.below(table.costs.len())];
        if scope.is_empty() {
            let (default, tuples) = (entry, Vec::new());
            return Function {
                scope,
                default,
                tuples,
            };
        }
        let default = rng.pick(&[0, entry, entry, 1, u32::MAX, rare(entry)]);
        let needless = rng.pick(&[1, 3, 1 << 30]);
        let sizes: Vec<u8> = scope.iter().map(|&v| domains[usize::from(v)]).collect();
        let places: Vec<usize> = (0..scope.len()).collect();
        let (mut tuples, mut values) = (Vec::new(), vec![0; scope.len()]);
        for &cost in &table.costs {
            if cost != default || rng.once_in(needless) {
                tuples.push((values.clone(), cost));
            }
            next_choice(&mut values, &sizes, &places);
        }
        if rng.once_in(2) {
            rng.shuffle(&mut tuples);
        }
        Function {
            scope,
            default,
            tuples,
        }
    }

    fn cost(&self, choice: &[u8]) -> u32 {
        let has = |values: &[u8]| {
            let scope = self.scope.iter().map(|&variable| usize::from(variable));
            scope.zip(values).all(|(v, &value)| choice[v] == value)
        };
        let given = self.tuples.iter().find(|(values, _)| has(values));
        given.map_or(self.default, |(_, cost)| *cost)
    }
}

/// A number that is rarely an entry.
fn rare(entry: u32) -> u32 {
    entry.wrapping_mul(0x9e37_79b9).wrapping_add(77)
}

/// A number as its digits, and one time in `odd` with zeros in front, a plus, or as a 0 with a minus.
fn numeral(rng: &mut Rng, number: u64, odd: usize) -> String {
    if !rng.once_in(odd) {
        return number.to_string();
    }
    let zeros = "0".repeat(rng.pick(&[0, 1, 2, 30]));
    let sign = match number {
        0 => rng.pick(&["", "+", "-"]),
        _ => rng.pick(&["", "+"]),
    };
    format!("{sign}{zeros}{number}")
}

/// The words with white space between neighbours, one byte or several, and perhaps at both ends.
pub fn laid_out<W: AsRef<str>>(rng: &mut Rng, words: &[W]) -> Vec<u8> {
    let gaps: &[&str] = rng.pick(&[
        &[" "][..],
        &["\n"],
        &["\r\n", " ", "\t"],
        &["  ", "   ", "\t\t", "\n\n", " \r\n\t"],
        &["\x0b", "\x0c", " ", "\n"],
    ]);
    let mut text = rng.pick(&["", "", "\n", " \t\r\n"]).to_string();
    for (index, word) in words.iter().enumerate() {
        if index > 0 {
            text.push_str(rng.pick(gaps));
        }
        text.push_str(word.as_ref());
    }
    text.push_str(rng.pick(&["\n", "", "\r\n", " "]));
    text.into_bytes()
}
