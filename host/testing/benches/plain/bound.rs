//! The bound call in plain Rust, with nothing copied and nothing allocated.

use crate::reader::{number, CostRecord, Cursor, Domains};
use frontier::lent::Least;
use frontier::limits::{MAX_ARITY, MAX_OBJECTIVES};
use frontier::Refusal;

/// The least of the entries with indices from `start` on, `length` of them and at least one.
fn least_of_run(table: &[u8], start: usize, length: usize) -> u32 {
    let run = &table[4 * start..4 * (start + length)];
    run.chunks_exact(4).map(number).fold(u32::MAX, u32::min)
}

/// The least entry that agrees with the prefix, by a loop for each scope variable. A short scope
/// is filled up in front with variables of one value.
fn least_by_loops(record: &CostRecord, domains: &Domains, prefix: &[u8]) -> u32 {
    let (mut sizes, mut firsts, mut ends) = ([1; MAX_ARITY], [0; MAX_ARITY], [1; MAX_ARITY]);
    let filled = MAX_ARITY - record.scope.len();
    for (&v, i) in record.scope.iter().zip(filled..) {
        let variable = usize::from(v);
        sizes[i] = usize::from(domains[variable]);
        ends[i] = sizes[i];
        if let Some(&value) = prefix.get(variable) {
            firsts[i] = usize::from(value);
            ends[i] = firsts[i] + 1;
        }
    }
    let mut least = u32::MAX;
    for a in firsts[0]..ends[0] {
        for b in firsts[1]..ends[1] {
            let row = (a * sizes[1] + b) * sizes[2];
            let length = ends[2] - firsts[2];
            least = least.min(least_of_run(record.table, row + firsts[2], length));
        }
    }
    least
}

/// The same as one run of entries where no free variable is written before one that the prefix
/// fixes, since the variables written last run fastest; else by loops.
fn least_in_one_run(record: &CostRecord, domains: &Domains, prefix: &[u8]) -> u32 {
    let (mut start, mut length) = (0, 1);
    for &v in record.scope {
        let variable = usize::from(v);
        let size = usize::from(domains[variable]);
        start *= size;
        match prefix.get(variable) {
            Some(&value) if length == 1 => start += usize::from(value),
            Some(_) => return least_by_loops(record, domains, prefix),
            None => length *= size,
        }
    }
    least_of_run(record.table, start, length)
}

fn try_bound(
    problem: &[u8],
    prefix: &[u8],
    least_entry: impl Fn(&CostRecord, &Domains, &[u8]) -> u32,
) -> Result<[u64; MAX_OBJECTIVES], Refusal> {
    let mut cursor = Cursor::new(problem)?;
    let header = cursor.header()?;
    let domains = cursor.domains(header.variables)?;
    // Told last, but asked here, because no entry can be looked up for a bad prefix.
    let in_domain = prefix.iter().zip(&domains).all(|(value, d)| value < d);
    let good_prefix = prefix.len() <= header.variables && in_domain;
    let mut least = [0; MAX_OBJECTIVES];
    for _ in 0..header.tables {
        let record = cursor.cost_record(&header, &domains)?;
        if good_prefix {
            least[record.objective] += u64::from(least_entry(&record, &domains, prefix));
        }
    }
    cursor.end()?;
    if !good_prefix {
        return Err(Refusal::Prefix);
    }
    Ok(least)
}

/// The bound call with one of the two ways to find a record's least entry.
fn bound(
    problem: &[u8],
    prefix: &[u8],
    least_entry: impl Fn(&CostRecord, &Domains, &[u8]) -> u32,
) -> Least {
    match try_bound(problem, prefix, least_entry) {
        Err(refusal) => refusal.into(),
        Ok(least) => Least {
            number: 0,
            place: 0,
            least,
        },
    }
}

/// The bound call by loops.
pub fn bound_by_loops(problem: &[u8], prefix: &[u8]) -> Least {
    bound(problem, prefix, least_by_loops)
}

/// The bound call by one run where that is possible.
pub fn bound_in_one_run(problem: &[u8], prefix: &[u8]) -> Least {
    bound(problem, prefix, least_in_one_run)
}
