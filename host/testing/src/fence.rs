//! Buffers between fences, which show whether a call writes beside what it is lent.

use std::fmt::Debug;

/// How many elements stand on each side of a fenced buffer.
const FENCE: usize = 8;

/// The elements between two fences of one value.
pub fn fenced<T: Copy>(inside: &[T], fence: T) -> Vec<T> {
    [&[fence; FENCE], inside, &[fence; FENCE]].concat()
}

/// The elements of a fenced buffer that are lent.
pub fn inside<T>(fenced: &mut [T]) -> &mut [T] {
    let end = fenced.len() - FENCE;
    &mut fenced[FENCE..end]
}

/// Asserts that both fences of a buffer stand as they were.
pub fn assert_fences<T: Copy + PartialEq + Debug>(fenced: &[T], fence: T) {
    assert_eq!(fenced[..FENCE], [fence; FENCE]);
    assert_eq!(fenced[fenced.len() - FENCE..], [fence; FENCE]);
}
