//! The reading call in plain Rust, as a careful programmer writes it: one pass over the words, every record
//! written to a list as soon as it is read, and the whole copied where it is accepted and fits.

use frontier::lent::Answer;
use frontier::limits::{MAX_ARITY, MAX_BYTES, MAX_DOMAIN, MAX_TABLES, MAX_VARIABLES};
use frontier::Refusal;

/// A number by its digits without zeros in front, and its value, which from 2^32 on is only told to be that.
#[derive(Clone, Copy)]
struct Natural<'a> {
    digits: &'a [u8],
    value: u64,
}

impl Natural<'_> {
    fn is_below(&self, other: &Natural) -> bool {
        match self.value.max(other.value) < TOO_LARGE {
            true => self.value < other.value,
            false => (self.digits.len(), self.digits) < (other.digits.len(), other.digits),
        }
    }
}

/// No number of a problem is so large.
const TOO_LARGE: u64 = 1 << 32;

/// The text that is not read yet, the records so far, and whether content was refused.
struct Reader<'a> {
    rest: &'a [u8],
    records: Vec<u8>,
    is_refused: bool,
}

impl<'a> Reader<'a> {
    /// The next word; an empty one at the end.
    fn word(&mut self) -> &'a [u8] {
        let is_space = |byte: &u8| matches!(byte, 9..=13 | 32);
        let start = self.rest.iter().position(|byte| !is_space(byte));
        let word = &self.rest[start.unwrap_or(self.rest.len())..];
        let length = word.iter().position(is_space).unwrap_or(word.len());
        let (word, rest) = word.split_at(length);
        self.rest = rest;
        word
    }

    /// The next number; a negative one is refused so.
    fn number(&mut self, negative: Refusal) -> Result<Natural<'a>, Refusal> {
        let word = self.word();
        let (is_minus, mut digits) = match word {
            [sign @ (b'+' | b'-'), digits @ ..] => (*sign == b'-', digits),
            digits => (false, digits),
        };
        if digits.is_empty() {
            return Err(Refusal::Text);
        }
        while let [b'0', rest @ ..] = digits {
            digits = rest;
        }
        let mut value = 0;
        for &digit in digits {
            if !digit.is_ascii_digit() {
                return Err(Refusal::Text);
            }
            value = TOO_LARGE.min(10 * value + u64::from(digit - b'0'));
        }
        match is_minus && !digits.is_empty() {
            true => Err(negative),
            false => Ok(Natural { digits, value }),
        }
    }

    /// The next number, which is refused outside these limits; reading goes on.
    fn within(&mut self, negative: Refusal, least: u64, most: u64) -> Result<Natural<'a>, Refusal> {
        let number = self.number(negative)?;
        self.is_refused |= number.value < least || number.value > most;
        Ok(number)
    }

    /// Adds bytes to the records, while nothing is refused and they are not too many.
    fn push(&mut self, bytes: &[u8]) {
        self.is_refused |= self.records.len() + bytes.len() > MAX_BYTES;
        if !self.is_refused {
            self.records.extend_from_slice(bytes);
        }
    }

    /// Name, counts, bound and domain sizes; the sizes, and the number of functions.
    fn head(&mut self) -> Result<(Vec<Natural<'a>>, u64), Refusal> {
        if self.word().is_empty() {
            return Err(Refusal::Text);
        }
        let variables = self.within(Refusal::Text, 1, MAX_VARIABLES as u64)?;
        let largest = self.number(Refusal::Text)?;
        let functions = self.within(Refusal::Text, 0, MAX_TABLES as u64)?;
        let bound = self.within(Refusal::Dialect, 1, u32::MAX.into())?;
        let [r0, r1, ..] = functions.value.to_le_bytes();
        self.push(&[b'H', b'D', variables.value as u8, 1, r0, r1]);
        // A bound of 0 is refused already, and nothing is pushed.
        self.push(&(bound.value.saturating_sub(1) as u32).to_le_bytes());
        let mut sizes = Vec::new();
        let mut is_met = false;
        for _ in 0..count(&variables) {
            let size = self.within(Refusal::Dialect, 1, MAX_DOMAIN as u64)?;
            if largest.is_below(&size) {
                return Err(Refusal::Text);
            }
            is_met |= !size.is_below(&largest);
            sizes.push(size);
            self.push(&[b'D', b'O', size.value as u8]);
        }
        match is_met || (sizes.is_empty() && largest.value == 0) {
            true => Ok((sizes, count(&functions))),
            false => Err(Refusal::Text),
        }
    }

    fn function(&mut self, sizes: &[Natural], scope: &mut Vec<usize>) -> Result<(), Refusal> {
        let arity = self.within(Refusal::Dialect, 0, MAX_ARITY as u64)?;
        scope.clear();
        for _ in 0..count(&arity) {
            let variable = self.number(Refusal::Text)?;
            if variable.value >= sizes.len() as u64 {
                return Err(Refusal::Text);
            }
            scope.push(variable.value as usize);
        }
        // Only asked where the scope is short.
        self.is_refused = self.is_refused || names_twice(scope);
        let default = self.within(Refusal::Dialect, 0, u32::MAX.into())?;
        let tuples = self.number(Refusal::Dialect)?;
        if scope.is_empty() && tuples.value > 0 {
            return Err(Refusal::Text);
        }
        let table = self.record(sizes, scope, default.value as u32);
        self.tuples(count(&tuples), sizes, scope, table)
    }

    /// Writes a record with the default everywhere; where its table starts.
    fn record(&mut self, sizes: &[Natural], scope: &[usize], default: u32) -> usize {
        if self.is_refused {
            return 0;
        }
        self.push(&[b'C', b'F', 0, scope.len() as u8]);
        scope.iter().for_each(|&v| self.push(&[v as u8]));
        let (table, entries) = (self.records.len(), entries(sizes, scope));
        self.is_refused |= table + 4 * entries > MAX_BYTES;
        if !self.is_refused {
            self.records.resize(table + 4 * entries, 0);
            for entry in self.records[table..].chunks_exact_mut(4) {
                entry.copy_from_slice(&default.to_le_bytes());
            }
        }
        table
    }

    fn tuples(
        &mut self,
        count: u64,
        sizes: &[Natural],
        scope: &[usize],
        table: usize,
    ) -> Result<(), Refusal> {
        let mut given = [false; MAX_DOMAIN.pow(MAX_ARITY as u32)];
        for _ in 0..count {
            let mut index = 0_u64;
            for &variable in scope {
                let value = self.number(Refusal::Text)?;
                if !value.is_below(&sizes[variable]) {
                    return Err(Refusal::Text);
                }
                index = index
                    .wrapping_mul(sizes[variable].value)
                    .wrapping_add(value.value);
            }
            let cost = self.within(Refusal::Dialect, 0, u32::MAX.into())?;
            if !self.is_refused {
                let index = index as usize;
                self.is_refused = std::mem::replace(&mut given[index], true);
                let place = table + 4 * index;
                let entry = (cost.value as u32).to_le_bytes();
                self.records[place..place + 4].copy_from_slice(&entry);
            }
        }
        Ok(())
    }
}

/// How often to read what a number counts; where it is too large, words end before.
fn count(number: &Natural) -> u64 {
    match number.value < TOO_LARGE {
        true => number.value,
        false => u64::MAX,
    }
}

fn entries(sizes: &[Natural], scope: &[usize]) -> usize {
    scope.iter().map(|&v| sizes[v].value as usize).product()
}

fn names_twice(scope: &[usize]) -> bool {
    (1..scope.len()).any(|i| scope[..i].contains(&scope[i]))
}

fn try_read(text: &[u8]) -> Result<Vec<u8>, Refusal> {
    let mut reader = Reader {
        rest: text,
        records: Vec::new(),
        is_refused: false,
    };
    let (sizes, functions) = reader.head()?;
    let mut scope = Vec::new();
    for _ in 0..functions {
        reader.function(&sizes, &mut scope)?;
    }
    match reader.word() {
        [] if !reader.is_refused => Ok(reader.records),
        [] => Err(Refusal::Dialect),
        _ => Err(Refusal::Text),
    }
}

/// Makes a problem of WCSP text.
pub fn from_text(text: &[u8], problem: &mut [u8]) -> Answer {
    match try_read(text) {
        Err(refusal) => refusal.into(),
        Ok(records) if records.len() > problem.len() => Refusal::Output.into(),
        Ok(records) => {
            problem[..records.len()].copy_from_slice(&records);
            Answer::accepted(records.len())
        }
    }
}
