//! The reader of a problem's bytes, with refusals 1 to 11 in the order of the reference, section 6.

use frontier::limits::{
    MAX_ARITY, MAX_BYTES, MAX_DOMAIN, MAX_OBJECTIVES, MAX_TABLES, MAX_VARIABLES,
};
use frontier::{Problem, Refusal, Table};

/// A problem that was read, and beside each table the first byte of its record.
pub struct Reading {
    pub problem: Problem,
    pub places: Vec<u32>,
}

/// The problem's bytes, the place in them, and where the record being read begins: all
/// refusals inside a record have that beginning as their place.
struct Reader<'a> {
    bytes: &'a [u8],
    place: usize,
    record: usize,
}

impl<'a> Reader<'a> {
    /// This refusal at the record being read.
    fn refuse(&self, at: fn(u32) -> Refusal) -> Refusal {
        at(self.record as u32)
    }

    /// The next `count` bytes, or "cut short".
    fn take(&mut self, count: usize) -> Result<&'a [u8], Refusal> {
        let rest = &self.bytes[self.place..];
        if rest.len() < count {
            return Err(self.refuse(Refusal::CutShort));
        }
        self.place += count;
        Ok(&rest[..count])
    }

    /// The next `count` four-byte numbers.
    fn take_numbers(&mut self, count: usize) -> Result<Vec<u32>, Refusal> {
        let bytes = self.take(4 * count)?;
        let number = |b: &[u8]| u32::from_le_bytes([b[0], b[1], b[2], b[3]]);
        Ok(bytes.chunks_exact(4).map(number).collect())
    }

    /// Begins the record that is due. Its mark is looked at before any field is missed.
    fn begin(&mut self, mark: &[u8; 2]) -> Result<(), Refusal> {
        self.record = self.place;
        if self.take(2)? != mark {
            return Err(self.refuse(Refusal::StrayMark));
        }
        Ok(())
    }

    /// The `HD` record: n, r and the ceilings, whose number is p.
    fn header(&mut self) -> Result<(usize, usize, Vec<u32>), Refusal> {
        self.begin(b"HD")?;
        let fields = self.take(4)?;
        let variables = usize::from(fields[0]);
        let objectives = usize::from(fields[1]);
        let tables = usize::from(u16::from_le_bytes([fields[2], fields[3]]));
        if !(1..=MAX_VARIABLES).contains(&variables) {
            return Err(self.refuse(Refusal::Variables));
        }
        if !(1..=MAX_OBJECTIVES).contains(&objectives) {
            return Err(self.refuse(Refusal::Objectives));
        }
        if tables > MAX_TABLES {
            return Err(self.refuse(Refusal::Tables));
        }
        Ok((variables, tables, self.take_numbers(objectives)?))
    }

    /// A `DO` record.
    fn domain(&mut self) -> Result<u8, Refusal> {
        self.begin(b"DO")?;
        let size = self.take(1)?[0];
        if !(1..=MAX_DOMAIN).contains(&usize::from(size)) {
            return Err(self.refuse(Refusal::Domain));
        }
        Ok(size)
    }

    /// A `CF` record of a problem with these domains and this number of objectives.
    fn table(&mut self, domains: &[u8], objectives: usize) -> Result<Table, Refusal> {
        self.begin(b"CF")?;
        let fields = self.take(2)?;
        let (objective, arity) = (fields[0], usize::from(fields[1]));
        if usize::from(objective) >= objectives {
            return Err(self.refuse(Refusal::Owner));
        }
        if arity > MAX_ARITY {
            return Err(self.refuse(Refusal::Arity));
        }
        let scope = self.take(arity)?.to_vec();
        let known = scope.iter().all(|&v| usize::from(v) < domains.len());
        let again = |i: usize| scope[..i].contains(&scope[i]);
        if !known || (0..arity).any(again) {
            return Err(self.refuse(Refusal::Scope));
        }
        let size = |v: &u8| usize::from(domains[usize::from(*v)]);
        let costs = self.take_numbers(scope.iter().map(size).product())?;
        Ok(Table {
            objective,
            scope,
            costs,
        })
    }
}

/// Reads a whole problem, or refuses with one of the numbers 1 to 11.
pub fn read_problem(bytes: &[u8]) -> Result<Reading, Refusal> {
    if bytes.len() > MAX_BYTES {
        return Err(Refusal::Oversize);
    }
    let mut reader = Reader {
        bytes,
        place: 0,
        record: 0,
    };
    let (variables, count, ceilings) = reader.header()?;
    let mut domains = Vec::new();
    for _ in 0..variables {
        domains.push(reader.domain()?);
    }
    let (mut tables, mut places) = (Vec::new(), Vec::new());
    for _ in 0..count {
        tables.push(reader.table(&domains, ceilings.len())?);
        places.push(reader.record as u32);
    }
    if reader.place < bytes.len() {
        return Err(Refusal::Leftover(reader.place as u32));
    }
    let problem = Problem {
        ceilings,
        domains,
        tables,
    };
    Ok(Reading { problem, places })
}
