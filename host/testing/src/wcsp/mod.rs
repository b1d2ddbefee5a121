//! WCSP text there and back, written from the rules' prose and the format's description alone: what a
//! text says is first read whole, without a limit of any kind, and only then held to the limits.

mod network;
mod numbers;

use std::iter::once;

use crate::reading::read_problem;
use frontier::lent::Answer;
use frontier::{Problem, Refusal, Table, FORBIDDEN};
use network::Network;

/// Writes a problem as WCSP text (reference, section 13), with refusals 1 to 11, 18 and 19.
pub fn to_text(problem: &[u8], text: &mut [u8]) -> Answer {
    match read_problem(problem) {
        Err(refusal) => refusal.into(),
        Ok(reading) => match text_of(&reading.problem) {
            None => Refusal::Dialect.into(),
            Some(written) => put(written.as_bytes(), text),
        },
    }
}

/// Writes the records of a WCSP text, with refusals 17, 18 and 19, all at place 0.
///
/// Of a text that is none (17), and of one whose content is refused (18), 17 is told, but what stands
/// behind a negative arity, domain size, cost, bound or number of tuples is not read.
pub fn from_text(text: &[u8], problem: &mut [u8]) -> Answer {
    match Network::read(text).and_then(|network| network.records()) {
        Err(refusal) => refusal.into(),
        Ok(records) => put(&records, problem),
    }
}

/// The problem with all its tables in one objective, under the first ceiling, but at most the greatest that a
/// text can have.
pub fn in_one_objective(problem: &Problem) -> Problem {
    let mut problem = problem.clone();
    problem.ceilings = vec![problem.ceilings[0].min(u32::MAX - 1)];
    problem
        .tables
        .iter_mut()
        .for_each(|table| table.objective = 0);
    problem
}

/// Puts a form into a buffer if it fits, and nothing otherwise.
fn put(form: &[u8], buffer: &mut [u8]) -> Answer {
    match buffer.get_mut(..form.len()) {
        None => Refusal::Output.into(),
        Some(start) => {
            start.copy_from_slice(form);
            Answer::accepted(form.len())
        }
    }
}

/// The text of a problem with one objective, if 32 bits are enough for its upper bound: the least cost that
/// is above the ceiling.
fn text_of(problem: &Problem) -> Option<String> {
    let [ceiling] = problem.ceilings[..] else {
        return None;
    };
    let bound = ceiling.checked_add(1)?;
    let largest = problem.domains.iter().max().expect("a variable");
    let first = format!(
        "P {} {largest} {} {bound}\n",
        problem.variables(),
        problem.tables.len(),
    );
    let functions = problem.tables.iter();
    let functions = functions.map(|table| function_text(table, &problem.domains, bound));
    let sizes = line(problem.domains.iter().copied().map(u32::from));
    Some(once(first).chain(once(sizes)).chain(functions).collect())
}

/// A record's head, and a line for each entry that is not 0. Without variables the default is the entry. An
/// entry that forbids costs the upper bound.
fn function_text(table: &Table, domains: &[u8], bound: u32) -> String {
    let written = |index: usize| match table.costs[index] {
        FORBIDDEN => bound,
        cost => cost,
    };
    if table.scope.is_empty() {
        return line([0, written(0), 0]);
    }
    let arity = table.scope.len() as u32;
    let scope = table.scope.iter().copied().map(u32::from);
    let charged = (0..table.costs.len()).filter(|&index| table.costs[index] != 0);
    let head = line(
        once(arity)
            .chain(scope)
            .chain([0, charged.clone().count() as u32]),
    );
    let tuple = |index: usize| {
        let values = values_at(&table.scope, domains, index);
        line(values.into_iter().chain([written(index)]))
    };
    once(head).chain(charged.map(tuple)).collect()
}

/// Numbers with a space between neighbours and a line feed behind the last.
fn line(numbers: impl IntoIterator<Item = u32>) -> String {
    let words: Vec<String> = numbers
        .into_iter()
        .map(|number| number.to_string())
        .collect();
    format!("{}\n", words.join(" "))
}

/// The values of a scope's variables at an entry. The last of them runs fastest.
fn values_at(scope: &[u8], domains: &[u8], index: usize) -> Vec<u32> {
    let (mut rest, mut values) = (index, Vec::new());
    for &variable in scope.iter().rev() {
        let size = usize::from(domains[usize::from(variable)]);
        values.insert(0, (rest % size) as u32);
        rest /= size;
    }
    values
}
