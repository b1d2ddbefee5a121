//! The plain call of the static library on changed bytes: every truncation, every change of one
//! byte, and problems around 60,000 bytes.

use chooser::junk::{junk, Rng};
use frontier::lent;
use frontier::lent::Buffers;
use frontier::limits::{LEAST_WORK, MAX_BYTES};
use frontier::refusal::{CUT_SHORT, LEFTOVER, OVERSIZE, STRAY_MARK};
use testing::examples::{brimful, colours, ten_problems};
use testing::mixed::compare_solve;

/// Buffers with junk and room for 64 points of a small problem.
fn roomy() -> Buffers {
    junk(&mut Rng::new(1), 256, 640, LEAST_WORK)
}

/// Asserts that the call answers and leaves its buffers as the brute force does, with this number.
fn assert_number(bytes: &[u8], lent: &Buffers, number: u8) {
    assert_eq!(compare_solve(bytes, lent, lent::solve_problem), Ok(()));
    let answer = lent.clone().lend(lent::solve_problem, bytes);
    assert_eq!(answer.number, number);
}

#[test]
fn every_truncation_of_ten_problems() {
    let lent = roomy();
    for problem in ten_problems() {
        let bytes = problem.encode();
        assert_number(&bytes, &lent, 0);
        for end in 0..bytes.len() {
            assert_number(&bytes[..end], &lent, CUT_SHORT);
        }
    }
}

#[test]
fn every_change_of_one_byte_of_colours() {
    let lent = roomy();
    let bytes = colours([100, 100]).encode();
    for place in 0..bytes.len() {
        let mut changed = bytes.clone();
        for change in 1..=255 {
            changed[place] = bytes[place] ^ change;
            let compared = compare_solve(&changed, &lent, lent::solve_problem);
            assert_eq!(compared, Ok(()));
        }
    }
}

#[test]
fn a_byte_more_is_left_over() {
    let lent = roomy();
    for problem in ten_problems() {
        let mut bytes = problem.encode();
        bytes.push(0);
        assert_number(&bytes, &lent, LEFTOVER);
    }
}

#[test]
fn around_sixty_thousand_bytes() {
    let lent = roomy();
    let mut bytes = brimful().encode();
    assert_eq!(bytes.len(), MAX_BYTES);
    assert_number(&bytes, &lent, 0);
    assert_number(&bytes[..MAX_BYTES - 1], &lent, CUT_SHORT);
    bytes.push(0);
    assert_number(&bytes, &lent, OVERSIZE);
    assert_number(&vec![0; MAX_BYTES], &lent, STRAY_MARK);
    assert_number(&vec![0; MAX_BYTES + 1], &lent, OVERSIZE);
    let mut padded = colours([100, 100]).encode();
    padded.resize(MAX_BYTES, 0);
    assert_number(&padded, &lent, LEFTOVER);
    padded.push(0);
    assert_number(&padded, &lent, OVERSIZE);
}
