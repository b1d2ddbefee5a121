//! A store of answers, for problems that come again.

use crate::limits::{MAX_SLOTS, SLOT_BYTES};
use crate::list::Frontier;

/// Solved problems with their answers, for [`Chooser::solve_cached`](crate::Chooser::solve_cached). It holds
/// the last problems that were stored, as many as it has slots; a problem in another layout is the same one.
///
/// ```
/// use frontier::{Chooser, Problem, Store, Table};
///
/// let mut problem = Problem {
///     ceilings: vec![100, 100],
///     domains: vec![2, 2],
///     tables: vec![
///         Table::new(0, &[0], &[30, 50]),
///         Table::new(1, &[0, 1], &[45, 49, 30, 15]),
///     ],
/// };
/// let (mut chooser, mut store) = (Chooser::new(), Store::new(8));
/// assert!(!chooser.solve_cached(&problem.encode(), &mut store)?.hit);
///
/// // The same problem with its cost tables in another order is in the store.
/// problem.tables.reverse();
/// let found = chooser.solve_cached(&problem.encode(), &mut store)?;
/// assert!(found.hit);
/// assert_eq!(found.frontier.costs(), [30, 45, 50, 15]);
///
/// // Its bytes may be kept, and be a store again later.
/// let mut later = Store::from_bytes(store.into_bytes());
/// assert!(chooser.solve_cached(&problem.encode(), &mut later)?.hit);
/// # Ok::<(), frontier::Refusal>(())
/// ```
#[derive(Clone, Debug, PartialEq, Eq)]
pub struct Store {
    bytes: Vec<u8>,
}

/// What the cached call answers.
#[derive(Clone, Copy, Debug, PartialEq, Eq)]
pub struct Cached<'a> {
    /// The frontier of the problem.
    pub frontier: Frontier<'a>,
    /// Whether the store held it.
    pub hit: bool,
}

impl Store {
    /// A cleared store with so many slots of [`SLOT_BYTES`] bytes, at most [`MAX_SLOTS`]. Without a slot the call
    /// is refused ([`Refusal::Store`](crate::Refusal::Store)).
    pub fn new(slots: usize) -> Store {
        let bytes = vec![0; slots.min(MAX_SLOTS) * SLOT_BYTES];
        Store { bytes }
    }

    /// The store with these bytes, which must be those of a store, all of them, or all 0. Other bytes do no harm
    /// to memory, but what stands there is taken for answers.
    pub fn from_bytes(bytes: Vec<u8>) -> Store {
        Store { bytes }
    }

    /// All its bytes, as the reference, section 15, has them.
    pub fn as_bytes(&self) -> &[u8] {
        &self.bytes
    }

    /// All its bytes, to be kept.
    pub fn into_bytes(self) -> Vec<u8> {
        self.bytes
    }

    /// How many slots it has.
    pub fn slots(&self) -> usize {
        (self.bytes.len() / SLOT_BYTES).min(MAX_SLOTS)
    }

    /// Forgets every problem.
    pub fn clear(&mut self) {
        self.bytes.fill(0);
    }

    /// What the call is lent.
    pub(crate) fn bytes_mut(&mut self) -> &mut [u8] {
        &mut self.bytes
    }
}
