//! The canonical form of a problem and its key, written from the prose alone (reference, section 14): records are
//! byte strings, tables are looked up combination by combination, and the order is that of a plain sort.

use std::collections::BTreeMap;

use crate::reading::read_problem;
use frontier::lent::{Answer, Keyed};
use frontier::{Problem, Refusal, Table};

/// The offset basis and the prime of 64-bit FNV-1a, as they are published.
const OFFSET_BASIS: u128 = 14_695_981_039_346_656_037;
const PRIME: u128 = (1 << 40) + (1 << 8) + 0xb3;

/// 64-bit FNV-1a: for each byte an exclusive or, and then a product modulo 2^64.
pub fn key_of(bytes: &[u8]) -> u64 {
    let mut hash = OFFSET_BASIS;
    for &byte in bytes {
        hash ^= u128::from(byte);
        hash = hash * PRIME % (1 << 64);
    }
    hash as u64
}

/// The combinations of values of variables with these domain sizes, the last variable fastest. No variables have
/// one combination.
fn combinations(sizes: &[u8]) -> Vec<Vec<u8>> {
    let Some((&last, before)) = sizes.split_last() else {
        return vec![Vec::new()];
    };
    let longer = |values: Vec<u8>| (0..last).map(move |value| [&values[..], &[value]].concat());
    combinations(before).into_iter().flat_map(longer).collect()
}

/// The bytes of a cost record with its scope in rising order: for each combination of values the entry that the
/// table has for it, looked up among the combinations as the record was written.
fn record_bytes(table: &Table, domains: &[u8]) -> Vec<u8> {
    let sizes = |scope: &[u8]| -> Vec<u8> {
        let size = |&v: &u8| domains[usize::from(v)];
        scope.iter().map(size).collect()
    };
    let written = combinations(&sizes(&table.scope)).into_iter();
    let entries: BTreeMap<Vec<u8>, u32> = written.zip(table.costs.iter().copied()).collect();
    let mut rising = table.scope.clone();
    rising.sort();
    let mut bytes = vec![b'C', b'F', table.objective, table.scope.len() as u8];
    bytes.extend(&rising);
    for values in combinations(&sizes(&rising)) {
        let value_of = |v: &u8| values[rising.iter().position(|w| w == v).expect("of the scope")];
        let asked: Vec<u8> = table.scope.iter().map(value_of).collect();
        bytes.extend(entries[&asked].to_le_bytes());
    }
    bytes
}

/// The canonical form of a valid problem.
pub fn form_of(problem: &Problem) -> Vec<u8> {
    let bare = Problem {
        tables: Vec::new(),
        ..problem.clone()
    };
    let mut form = bare.encode();
    form[4..6].copy_from_slice(&(problem.tables.len() as u16).to_le_bytes());
    let mut records: Vec<Vec<u8>> = problem
        .tables
        .iter()
        .map(|table| record_bytes(table, &problem.domains))
        .collect();
    records.sort();
    form.extend(records.concat());
    form
}

/// The canonical call.
pub fn canonical(problem: &[u8], form: &mut [u8]) -> Keyed {
    let due = match read_problem(problem) {
        Err(refusal) => return refusal.into(),
        Ok(reading) => form_of(&reading.problem),
    };
    if form.len() < due.len() {
        return Refusal::Output.into();
    }
    form[..due.len()].copy_from_slice(&due);
    Keyed {
        answer: Answer::accepted(due.len()),
        key: key_of(&due),
    }
}
