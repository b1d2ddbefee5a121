//! The text call in plain Rust: every record is written as soon as it is read, to a list that grows, and the whole is
//! copied where it fits.

use crate::reader::{number, CostRecord, Cursor, Domains};
use frontier::lent::Answer;
use frontier::limits::{MAX_ARITY, MAX_BYTES, TEXT_LEN};
use frontier::{Refusal, FORBIDDEN};

/// Appends a number and what follows it.
fn push(text: &mut Vec<u8>, number: u32, behind: u8) {
    let (mut digits, mut first, mut rest) = ([0; 10], 10, number);
    loop {
        first -= 1;
        digits[first] = b'0' + (rest % 10) as u8;
        rest /= 10;
        if rest == 0 {
            break;
        }
    }
    text.extend_from_slice(&digits[first..]);
    text.push(behind);
}

/// What an entry costs in the text: a forbidden one the upper bound.
fn written(entry: u32, bound: u32) -> u32 {
    match entry {
        FORBIDDEN => bound,
        _ => entry,
    }
}

/// Appends a record with variables. The values of an entry are counted on from those of the one before.
fn push_function(text: &mut Vec<u8>, record: &CostRecord, domains: &Domains, bound: u32) {
    let (arity, entries) = (record.scope.len(), || {
        record.table.chunks_exact(4).map(number)
    });
    push(text, arity as u32, b' ');
    for &variable in record.scope {
        push(text, variable.into(), b' ');
    }
    push(text, 0, b' ');
    push(
        text,
        entries().filter(|&entry| entry != 0).count() as u32,
        b'\n',
    );
    let mut values = [0_u8; MAX_ARITY];
    for entry in entries() {
        if entry != 0 {
            for value in &values[..arity] {
                text.extend_from_slice(&[b'0' + value, b' ']);
            }
            push(text, written(entry, bound), b'\n');
        }
        for (value, &variable) in values[..arity].iter_mut().zip(record.scope).rev() {
            *value += 1;
            if *value < domains[usize::from(variable)] {
                break;
            }
            *value = 0;
        }
    }
}

fn try_text(problem: &[u8]) -> Result<Vec<u8>, Refusal> {
    let mut cursor = Cursor::new(problem)?;
    let header = cursor.header()?;
    let domains = cursor.domains(header.variables)?;
    let mut text = Vec::with_capacity(problem.len() * TEXT_LEN / MAX_BYTES);
    let sizes = &domains[..header.variables];
    text.extend_from_slice(b"P ");
    push(&mut text, sizes.len() as u32, b' ');
    push(
        &mut text,
        sizes.iter().max().copied().unwrap_or(0).into(),
        b' ',
    );
    push(&mut text, header.tables as u32, b' ');
    // The ceiling stands behind the mark and four bytes of fields. Of the greatest the text is dropped at the end.
    let ceiling = number(&problem[6..]);
    let bound = ceiling.wrapping_add(1);
    push(&mut text, bound, b'\n');
    for &size in sizes {
        text.extend_from_slice(&[b'0' + size, b' ']);
    }
    *text.last_mut().expect("a size") = b'\n';
    for _ in 0..header.tables {
        let record = cursor.cost_record(&header, &domains)?;
        if record.scope.is_empty() {
            text.extend_from_slice(b"0 ");
            push(&mut text, written(number(record.table), bound), b' ');
            text.extend_from_slice(b"0\n");
        } else {
            push_function(&mut text, &record, &domains, bound);
        }
    }
    cursor.end()?;
    match header.objectives == 1 && ceiling < u32::MAX {
        true => Ok(text),
        false => Err(Refusal::Dialect),
    }
}

/// Writes a problem with one objective as WCSP text.
pub fn to_text(problem: &[u8], text: &mut [u8]) -> Answer {
    match try_text(problem) {
        Err(refusal) => refusal.into(),
        Ok(written) if written.len() > text.len() => Refusal::Output.into(),
        Ok(written) => {
            text[..written.len()].copy_from_slice(&written);
            Answer::accepted(written.len())
        }
    }
}
