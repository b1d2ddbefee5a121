//! Reading a problem in plain Rust, as a careful programmer writes it: one pass over the bytes, which are
//! checked where they stand, with nothing copied and nothing allocated.
//!
//! Every function is marked for inlining, as if it stood in the module that reads: as a module of its own
//! without that it took the bound call a third of its speed.

use frontier::limits::{
    MAX_ARITY, MAX_BYTES, MAX_DOMAIN, MAX_OBJECTIVES, MAX_TABLES, MAX_VARIABLES,
};
use frontier::Refusal;

/// The domain sizes of the variables; those from n on are 0.
pub type Domains = [u8; MAX_VARIABLES];

/// A cost record where it stands in the problem's bytes.
pub struct CostRecord<'a> {
    #[allow(dead_code, reason = "the text call does not ask for it")]
    pub objective: usize,
    pub scope: &'a [u8],
    pub table: &'a [u8],
}

pub struct Header {
    pub variables: usize,
    pub objectives: usize,
    pub tables: usize,
}

/// The bytes not yet read, where they start, and where the record being read starts.
pub struct Cursor<'a> {
    rest: &'a [u8],
    place: usize,
    record: usize,
}

impl<'a> Cursor<'a> {
    /// At the start of a problem that is not too long.
    #[inline]
    pub fn new(problem: &'a [u8]) -> Result<Cursor<'a>, Refusal> {
        if problem.len() > MAX_BYTES {
            return Err(Refusal::Oversize);
        }
        Ok(Cursor {
            rest: problem,
            place: 0,
            record: 0,
        })
    }

    /// Asks that nothing follows the last record.
    #[inline]
    pub fn end(&mut self) -> Result<(), Refusal> {
        if self.rest.is_empty() {
            return Ok(());
        }
        self.record = self.place;
        self.refuse(Refusal::Leftover)
    }

    #[inline]
    fn refuse<T>(&self, at: fn(u32) -> Refusal) -> Result<T, Refusal> {
        Err(at(self.record as u32))
    }

    #[inline]
    fn take(&mut self, count: usize) -> Result<&'a [u8], Refusal> {
        if self.rest.len() < count {
            return self.refuse(Refusal::CutShort);
        }
        let (taken, rest) = self.rest.split_at(count);
        self.rest = rest;
        self.place += count;
        Ok(taken)
    }

    #[inline]
    fn begin(&mut self, mark: [u8; 2]) -> Result<(), Refusal> {
        self.record = self.place;
        if self.take(2)? != mark {
            return self.refuse(Refusal::StrayMark);
        }
        Ok(())
    }

    #[inline]
    pub fn header(&mut self) -> Result<Header, Refusal> {
        self.begin(*b"HD")?;
        let fields = self.take(4)?;
        let header = Header {
            variables: usize::from(fields[0]),
            objectives: usize::from(fields[1]),
            tables: usize::from(u16::from_le_bytes([fields[2], fields[3]])),
        };
        if header.variables == 0 || header.variables > MAX_VARIABLES {
            return self.refuse(Refusal::Variables);
        }
        if header.objectives == 0 || header.objectives > MAX_OBJECTIVES {
            return self.refuse(Refusal::Objectives);
        }
        if header.tables > MAX_TABLES {
            return self.refuse(Refusal::Tables);
        }
        self.take(4 * header.objectives)?;
        Ok(header)
    }

    #[inline]
    pub fn domains(&mut self, variables: usize) -> Result<Domains, Refusal> {
        let mut domains = [0; MAX_VARIABLES];
        for size in &mut domains[..variables] {
            self.begin(*b"DO")?;
            *size = self.take(1)?[0];
            if *size == 0 || usize::from(*size) > MAX_DOMAIN {
                return self.refuse(Refusal::Domain);
            }
        }
        Ok(domains)
    }

    #[inline]
    pub fn cost_record(
        &mut self,
        header: &Header,
        domains: &Domains,
    ) -> Result<CostRecord<'a>, Refusal> {
        self.begin(*b"CF")?;
        let fields = self.take(2)?;
        let (objective, arity) = (usize::from(fields[0]), usize::from(fields[1]));
        if objective >= header.objectives {
            return self.refuse(Refusal::Owner);
        }
        if arity > MAX_ARITY {
            return self.refuse(Refusal::Arity);
        }
        let scope = self.take(arity)?;
        // A bit for each variable that was named.
        let (mut named, mut entries) = (0_u32, 1);
        for &v in scope {
            let variable = usize::from(v);
            if variable >= header.variables || named >> variable & 1 == 1 {
                return self.refuse(Refusal::Scope);
            }
            named |= 1 << variable;
            entries *= usize::from(domains[variable]);
        }
        Ok(CostRecord {
            objective,
            scope,
            table: self.take(4 * entries)?,
        })
    }
}

/// A number of four bytes.
#[allow(dead_code, reason = "the canonical call moves entries as they stand")]
#[inline]
pub fn number(bytes: &[u8]) -> u32 {
    u32::from_le_bytes([bytes[0], bytes[1], bytes[2], bytes[3]])
}
