//! Which record of a problem's bytes starts at a place, for people who look for a fault.

/// A record, or what there is of it.
#[derive(Clone, Copy, Debug, PartialEq, Eq)]
pub struct Record<'a> {
    /// The mark that is due there.
    pub mark: &'static str,
    /// The number among the records of its kind, from 0.
    pub number: usize,
    /// Its bytes; all that follow where its own fields do not say its length.
    pub bytes: &'a [u8],
}

impl Record<'_> {
    /// The byte at a place of the record.
    pub fn byte(&self, place: usize) -> Option<usize> {
        self.bytes.get(place).map(|&byte| byte.into())
    }
}

/// The records of a problem by their places, as far as the header says where they stand.
struct Layout<'a> {
    bytes: &'a [u8],
    variables: usize,
    /// The first byte of the first `DO` record.
    domains: usize,
}

impl Layout<'_> {
    fn byte(&self, place: usize) -> Option<usize> {
        self.bytes.get(place).map(|&byte| byte.into())
    }

    /// The first byte of the first `CF` record.
    fn tables(&self) -> usize {
        self.domains + 3 * self.variables
    }

    /// The length of the `CF` record at a place.
    fn table_length(&self, place: usize) -> Option<usize> {
        let arity = self.byte(place + 3)?;
        let mut entries: usize = 1;
        for i in 0..arity {
            let variable = self.byte(place + 4 + i)?;
            let inside = variable < self.variables;
            let size = self.byte(self.domains + 3 * variable + 2)?;
            entries = entries.checked_mul(size).filter(|_| inside)?;
        }
        entries.checked_mul(4)?.checked_add(4 + arity)
    }
}

/// The record that starts at a place where a refusal says that one does, so that all records
/// before it are good.
pub fn record_at(bytes: &[u8], place: usize) -> Option<Record<'_>> {
    let rest = bytes.get(place..)?;
    let field = |place: usize| bytes.get(place).map(|&byte| usize::from(byte));
    if place == 0 {
        let length = field(3).map(|objectives| 6 + 4 * objectives);
        return Some(cut_to("HD", 0, rest, length));
    }
    let layout = Layout {
        bytes,
        variables: field(2)?,
        domains: 6 + 4 * field(3)?,
    };
    if place < layout.tables() {
        let number = place.checked_sub(layout.domains)? / 3;
        return Some(cut_to("DO", number, rest, Some(3)));
    }
    let (mut start, mut number) = (layout.tables(), 0);
    while start < place {
        start += layout.table_length(start)?;
        number += 1;
    }
    Some(cut_to("CF", number, rest, layout.table_length(place)))
}

/// The record at the start of some bytes, no longer than this.
fn cut_to<'a>(
    mark: &'static str,
    number: usize,
    rest: &'a [u8],
    length: Option<usize>,
) -> Record<'a> {
    let length = length.unwrap_or(rest.len()).min(rest.len());
    Record {
        mark,
        number,
        bytes: &rest[..length],
    }
}

#[cfg(test)]
mod tests {
    use super::record_at;
    use testing::examples::{colours, every_arity};

    #[test]
    fn records_are_found_where_they_start() {
        let bytes = colours([100, 100]).encode();
        let at = |place| record_at(&bytes, place).expect("a record starts there");
        assert_eq!((at(0).mark, at(0).number, at(0).bytes.len()), ("HD", 0, 14));
        assert_eq!(
            (at(20).mark, at(20).number, at(20).bytes),
            ("DO", 2, &b"DO\x02"[..])
        );
        assert_eq!(
            (at(45).mark, at(45).number, at(45).bytes.len()),
            ("CF", 1, 22)
        );
        assert_eq!(
            (at(155).mark, at(155).number, at(155).bytes.len()),
            ("CF", 6, 0)
        );
        assert_eq!(record_at(&bytes, 156), None);
    }

    #[test]
    fn any_bytes_and_places_do() {
        let bytes = every_arity().encode();
        for length in 0..bytes.len() {
            for place in 0..=length {
                if let Some(record) = record_at(&bytes[..length], place) {
                    assert!(record.bytes.len() <= length - place);
                }
            }
        }
    }
}
