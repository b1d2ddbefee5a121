//! The side lists of the cut call of the static library: which ones are refused, where the first
//! linked record is, and which refusals come before these.

use chooser::junk::{junk, Rng};
use frontier::lent;
use frontier::lent::{Buffers, Halves};
use frontier::limits::{LEAST_WORK, MAX_BYTES, MAX_VARIABLES};
use frontier::refusal::{CUT_SHORT, FULL, LEFTOVER, LINKED, OVERSIZE, SIDES};
use frontier::{Problem, Refusal, Table};
use testing::examples::{colours, pair, ten_problems};
use testing::mixed::compare_cut;

/// Buffers with junk, room for 64 points of a small problem, and a work buffer of this length.
fn roomy(work: usize) -> Buffers {
    junk(&mut Rng::new(1), 256, 640, work)
}

/// Asserts that the call answers and leaves its buffers as the brute force does, and gives what it
/// answers.
fn checked_cut(bytes: &[u8], sides: &[u8], lent: &Buffers) -> Halves {
    let compared = compare_cut(bytes, sides, lent, lent::solve_cut);
    assert_eq!(compared, Ok(()));
    lent.clone().lend_cut(lent::solve_cut, bytes, sides)
}

/// Asserts that the call refuses with this number and place, and leaves its buffers alone.
fn assert_refused(bytes: &[u8], sides: &[u8], number: u8, place: u32) {
    let halves = checked_cut(bytes, sides, &roomy(LEAST_WORK));
    let expected = Refusal::new(number, place).expect("a refusal");
    assert_eq!(halves, expected.into(), "sides {sides:?}");
}

#[test]
fn side_lists_of_other_lengths() {
    for problem in ten_problems() {
        let (n, bytes) = (problem.variables(), problem.encode());
        let short = 0..n;
        let long = (n + 1..=MAX_VARIABLES + 2).chain([255, 256, 256 + n, 65_536, 65_536 + n]);
        for length in short.chain(long) {
            assert_refused(&bytes, &vec![0; length], SIDES, 0);
            assert_refused(&bytes, &vec![1; length], SIDES, 0);
        }
    }
}

#[test]
fn every_byte_at_every_place() {
    let bytes = pair([9, 9]).encode();
    let mut wide = pair([9, 9]);
    wide.domains.resize(MAX_VARIABLES, 1);
    for byte in 0..=255 {
        for place in 0..MAX_VARIABLES {
            let mut sides = [0; MAX_VARIABLES];
            sides[place] = byte;
            let halves = checked_cut(&wide.encode(), &sides, &roomy(LEAST_WORK));
            let expected = if byte > 1 { SIDES } else { 0 };
            assert_eq!(halves.answer.number, expected, "{byte} at {place}");
        }
        if byte > 1 {
            assert_refused(&bytes, &[byte, byte], SIDES, 0);
        }
    }
}

#[test]
fn the_first_linked_record_of_colours() {
    let bytes = colours([100, 100]).encode();
    for (sides, place) in [
        ([0, 0, 1], 45),
        ([1, 1, 0], 45),
        ([0, 1, 0], 23),
        ([1, 0, 1], 23),
        ([0, 1, 1], 23),
        ([1, 0, 0], 23),
    ] {
        assert_refused(&bytes, &sides, LINKED, place);
    }
}

/// A table over variables 0, 1 and 3 of four, behind three tables that no cut crosses.
fn with_triple() -> Problem {
    let mut tables: Vec<Table> = (0..3).map(|v| Table::new(0, &[v], &[1, 0])).collect();
    tables.push(Table::new(1, &[0, 1, 3], &[0, 1, 2, 3, 4, 5, 6, 7]));
    Problem {
        ceilings: vec![9, 9],
        domains: vec![2; 4],
        tables,
    }
}

#[test]
fn each_variable_of_a_scope_is_asked() {
    let bytes = with_triple().encode();
    let place = 14 + 4 * 3 + 3 * 13;
    for bits in 0..16 {
        let sides = [0, 1, 2, 3].map(|v| bits >> v & 1);
        if sides[0] == sides[1] && sides[1] == sides[3] {
            let halves = checked_cut(&bytes, &sides, &roomy(LEAST_WORK));
            assert_eq!(halves.answer.number, 0, "sides {sides:?}");
        } else {
            assert_refused(&bytes, &sides, LINKED, place);
        }
    }
}

/// Bytes that are refused with each of the numbers 1 to 11, and the places.
fn refused_bytes() -> Vec<(u8, u32, Vec<u8>)> {
    let good = colours([100, 100]).encode();
    let changed = |number: u8, place: u32, at: usize, byte: u8| {
        let mut bytes = good.clone();
        bytes[at] = byte;
        (number, place, bytes)
    };
    vec![
        (OVERSIZE, 0, vec![0; MAX_BYTES + 1]),
        (CUT_SHORT, 133, good[..154].to_vec()),
        changed(3, 14, 14, b'X'),
        changed(4, 0, 2, 25),
        changed(5, 0, 3, 5),
        changed(6, 0, 5, 2),
        changed(7, 14, 16, 9),
        changed(8, 23, 25, 2),
        changed(9, 23, 26, 4),
        changed(10, 23, 28, 0),
        (LEFTOVER, 155, [&good[..], &[0]].concat()),
    ]
}

/// Side lists of Colours: bad ones, crossed ones and good ones.
const SIDE_LISTS: [&[u8]; 6] = [
    &[],
    &[0, 0],
    &[0, 1, 2],
    &[0, 1, 1, 1],
    &[0, 0, 1],
    &[0, 0, 0],
];

#[test]
fn refusals_1_to_12_come_before_those_of_the_sides() {
    let bytes = refused_bytes();
    let numbers: Vec<u8> = bytes.iter().map(|(number, _, _)| *number).collect();
    assert_eq!(numbers, (OVERSIZE..=LEFTOVER).collect::<Vec<u8>>());
    for (number, place, bytes) in bytes {
        for sides in SIDE_LISTS {
            assert_refused(&bytes, sides, number, place);
            let short = checked_cut(&bytes, sides, &roomy(LEAST_WORK - 1));
            let expected = Refusal::new(number, place).expect("a refusal");
            assert_eq!(short, expected.into());
        }
    }
    let good = colours([100, 100]).encode();
    for sides in SIDE_LISTS {
        let short = checked_cut(&good, sides, &roomy(LEAST_WORK - 1));
        assert_eq!(short, Refusal::Work.into(), "sides {sides:?}");
    }
}

#[test]
fn refusals_of_the_sides_come_before_a_lack_of_room() {
    let bytes = colours([100, 100]).encode();
    let without_room = junk(&mut Rng::new(2), 3, 5, LEAST_WORK);
    let numbers = [SIDES, SIDES, SIDES, SIDES, LINKED, FULL];
    for (sides, number) in SIDE_LISTS.into_iter().zip(numbers) {
        let halves = checked_cut(&bytes, sides, &without_room);
        assert_eq!(halves.answer.number, number, "sides {sides:?}");
    }
}

#[test]
fn every_truncation_of_ten_problems() {
    for problem in ten_problems() {
        let (n, bytes) = (problem.variables(), problem.encode());
        for end in 0..bytes.len() {
            let halves = checked_cut(&bytes[..end], &vec![0; n], &roomy(LEAST_WORK));
            assert_eq!(halves.answer.number, CUT_SHORT, "{end} bytes");
        }
    }
}

#[test]
fn every_change_of_one_byte_of_pair() {
    let bytes = pair([9, 9]).encode();
    let lent = roomy(LEAST_WORK);
    for place in 0..bytes.len() {
        let mut changed = bytes.clone();
        for change in 1..=255 {
            changed[place] = bytes[place] ^ change;
            checked_cut(&changed, &[0, 1], &lent);
        }
    }
}
