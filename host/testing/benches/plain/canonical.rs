//! The canonical call in plain Rust: every record is turned into memory of its own as soon as it is read, by steps
//! through its table; the records are sorted as slices, and copied out with the key on the way.

use crate::reader::{CostRecord, Cursor, Domains};
use frontier::lent::{Answer, Keyed};
use frontier::limits::MAX_ARITY;
use frontier::Refusal;

/// The offset basis and the prime of 64-bit FNV-1a.
const START: u64 = 0xcbf2_9ce4_8422_2325;
const PRIME: u64 = 0x0000_0100_0000_01b3;

/// A variable of a scope: its number, its domain size, and how many bytes lie between the entries of neighbouring
/// values.
#[derive(Clone, Copy)]
struct Step {
    variable: u8,
    size: usize,
    stride: usize,
}

/// In the place of a variable that a scope does not have; it stands before all others.
const NO_STEP: Step = Step {
    variable: 0,
    size: 1,
    stride: 0,
};

/// Writes a record with its scope in rising order, which has as many bytes.
fn turn(record: &CostRecord, domains: &Domains, turned: &mut [u8]) {
    let (scope, table) = (record.scope, record.table);
    let (head, entries) = turned.split_at_mut(4 + scope.len());
    head[..4].copy_from_slice(&[b'C', b'F', record.objective as u8, scope.len() as u8]);
    head[4..].copy_from_slice(scope);
    if scope.is_sorted() {
        entries.copy_from_slice(table);
        return;
    }
    head[4..].sort_unstable();
    let mut steps = [NO_STEP; MAX_ARITY];
    let mut stride = 4;
    for (step, &variable) in steps.iter_mut().rev().zip(scope.iter().rev()) {
        let size = usize::from(domains[usize::from(variable)]);
        *step = Step {
            variable,
            size,
            stride,
        };
        stride *= size;
    }
    let first = MAX_ARITY - scope.len();
    steps[first..].sort_unstable_by_key(|step| step.variable);
    let [outer, middle, inner] = steps;
    let mut entries = entries.chunks_exact_mut(4);
    for a in 0..outer.size {
        for b in 0..middle.size {
            let row = &table[a * outer.stride + b * middle.stride..];
            for (c, entry) in entries.by_ref().take(inner.size).enumerate() {
                entry.copy_from_slice(&row[c * inner.stride..][..4]);
            }
        }
    }
}

/// The key so far with these bytes more.
#[inline]
fn key_on(key: u64, bytes: &[u8]) -> u64 {
    let step = |key: u64, &byte: &u8| (key ^ u64::from(byte)).wrapping_mul(PRIME);
    bytes.iter().fold(key, step)
}

fn try_form(problem: &[u8], form: &mut [u8]) -> Result<Keyed, Refusal> {
    let mut cursor = Cursor::new(problem)?;
    let header = cursor.header()?;
    let domains = cursor.domains(header.variables)?;
    let head = 6 + 4 * header.objectives + 3 * header.variables;
    let mut scratch = vec![0; problem.len()];
    let mut rest = &mut scratch[..];
    let mut records: Vec<&[u8]> = Vec::with_capacity(header.tables);
    for _ in 0..header.tables {
        let record = cursor.cost_record(&header, &domains)?;
        let (turned, behind) = rest.split_at_mut(4 + record.scope.len() + record.table.len());
        turn(&record, &domains, turned);
        records.push(turned);
        rest = behind;
    }
    cursor.end()?;
    if form.len() < problem.len() {
        return Err(Refusal::Output);
    }
    records.sort_unstable();
    form[..head].copy_from_slice(&problem[..head]);
    let (mut key, mut place) = (key_on(START, &problem[..head]), head);
    for record in records {
        form[place..place + record.len()].copy_from_slice(record);
        place += record.len();
        key = key_on(key, record);
    }
    Ok(Keyed {
        answer: Answer::accepted(place),
        key,
    })
}

/// Writes the canonical form of a problem, and tells its key.
pub fn canonical(problem: &[u8], form: &mut [u8]) -> Keyed {
    try_form(problem, form).unwrap_or_else(Keyed::from)
}
