//! The bound call of the static library on changed bytes: every truncation, every change of one
//! byte, and problems around 60,000 bytes.

use frontier::lent;
use frontier::limits::MAX_BYTES;
use frontier::refusal::{CUT_SHORT, LEFTOVER, OVERSIZE, STRAY_MARK};
use testing::examples::{brimful, colours, ten_problems};
use testing::mixed::compare_bound;

/// Asserts that the call answers as the brute force does, with a short prefix of each kind.
fn assert_agrees(bytes: &[u8]) {
    let prefixes: [&[u8]; 4] = [&[], &[0, 0], &[1, 0, 1], &[0, 9]];
    for prefix in prefixes {
        assert_eq!(compare_bound(bytes, prefix, lent::bound_prefix), Ok(()));
    }
}

/// Asserts that the call answers as the brute force does, and with this number.
fn assert_number(bytes: &[u8], number: u8) {
    assert_agrees(bytes);
    assert_eq!(lent::bound_prefix(bytes, &[]).number, number);
}

#[test]
fn every_truncation_of_ten_problems() {
    for problem in ten_problems() {
        let bytes = problem.encode();
        assert_number(&bytes, 0);
        for end in 0..bytes.len() {
            assert_number(&bytes[..end], CUT_SHORT);
        }
    }
}

#[test]
fn every_change_of_one_byte_of_colours() {
    let bytes = colours([100, 100]).encode();
    for place in 0..bytes.len() {
        let mut changed = bytes.clone();
        for change in 1..=255 {
            changed[place] = bytes[place] ^ change;
            assert_agrees(&changed);
        }
    }
}

#[test]
fn a_byte_more_is_left_over() {
    for problem in ten_problems() {
        let mut bytes = problem.encode();
        let length = bytes.len() as u32;
        for byte in 0..=255 {
            bytes.push(byte);
            assert_number(&bytes, LEFTOVER);
            assert_eq!(lent::bound_prefix(&bytes, &[]).place, length);
            bytes.pop();
        }
    }
}

#[test]
fn around_sixty_thousand_bytes() {
    let mut bytes = brimful().encode();
    assert_number(&bytes, 0);
    assert_eq!(bytes.len(), MAX_BYTES);
    assert_number(&bytes[..MAX_BYTES - 1], CUT_SHORT);
    bytes.push(0);
    assert_number(&bytes, OVERSIZE);
    assert_number(&vec![0; MAX_BYTES], STRAY_MARK);
    assert_number(&vec![0; MAX_BYTES + 1], OVERSIZE);
    assert_number(&vec![0; 20 * MAX_BYTES], OVERSIZE);
    let mut padded = colours([100, 100]).encode();
    padded.resize(MAX_BYTES, 0);
    assert_number(&padded, LEFTOVER);
    padded.push(0);
    assert_number(&padded, OVERSIZE);
}

/// Around the marks only: in between nothing changes but how much of a table is missing.
#[test]
fn truncations_of_sixty_thousand_bytes() {
    let bytes = brimful().encode();
    let marks = |&end: &usize| bytes[end..].starts_with(b"CF");
    let starts: Vec<usize> = (0..bytes.len()).filter(marks).collect();
    assert_eq!(starts.len(), brimful().tables.len());
    for start in starts {
        for end in start.saturating_sub(3)..start + 9 {
            if end < bytes.len() {
                assert_number(&bytes[..end], CUT_SHORT);
            }
        }
    }
}
