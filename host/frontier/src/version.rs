//! The version of the library that is linked.

use crate::ffi::frontier_version;

/// The version of the linked library as one number: 1.2.3 is 1,002,003. `docs/INTERFACE.md` says what
/// a version may change.
///
/// ```
/// assert_eq!(frontier::version() / 1_000_000, 3);
/// ```
pub fn version() -> u32 {
    // SAFETY: the call takes nothing, and only gives a number.
    unsafe { frontier_version() }
}
