//! The canonical form of a problem and its key: one for all layouts of its cost records.

use crate::lent;
use crate::limits::MAX_BYTES;
use crate::refusal::{check, Refusal};

/// A problem in its canonical form, with the key of that.
#[derive(Clone, Debug, PartialEq, Eq, Hash)]
pub struct Canonical {
    /// The record bytes: as long as the problem's, and with the same frontier.
    pub form: Vec<u8>,
    /// The 64-bit FNV-1a of the form. Different forms seldom have the same key, but it can happen, and can
    /// be brought about: a program for which that matters compares the forms.
    pub key: u64,
}

/// The canonical form of a problem: every scope in rising order with its table turned to fit, and the cost
/// records in rising order of their bytes. Problems that differ in such order alone have the same form and
/// key. Nothing is left out and nothing added up.
///
/// ```
/// use frontier::{canonical, Problem, Table};
///
/// let problem = Problem {
///     ceilings: vec![100],
///     domains: vec![2, 3],
///     tables: vec![Table::new(0, &[1, 0], &[4, 1, 3, 5, 2, 0]), Table::new(0, &[0], &[7, 9])],
/// };
/// let found = canonical(&problem.encode())?;
/// assert_eq!(
///     Problem::decode(&found.form)?.tables,
///     [Table::new(0, &[0], &[7, 9]), Table::new(0, &[0, 1], &[4, 3, 2, 1, 5, 0])]
/// );
/// assert_eq!(found.key, 0x9906_7a07_8aac_dbf4);
/// // The form of the form is itself.
/// assert_eq!(canonical(&found.form)?, found);
/// # Ok::<(), frontier::Refusal>(())
/// ```
pub fn canonical(problem: &[u8]) -> Result<Canonical, Refusal> {
    // As long as the form is. A problem that is too long is refused anyway.
    let mut form = vec![0; problem.len().min(MAX_BYTES)];
    let found = lent::canonical(problem, &mut form);
    check(found.answer.number, found.answer.place)?;
    let key = found.key;
    Ok(Canonical { form, key })
}
