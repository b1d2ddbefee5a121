//! The bound call of the static library against the brute force: random problems, what the call
//! writes and leaves alone, and calls side by side.

use std::collections::BTreeSet;
use std::ops::Range;
use std::thread;

use frontier::lent::{self, write_bound, Least};
use frontier::refusal::PREFIX;
use frontier::Refusal;
use testing::brute::bound_prefix;
use testing::examples::{brimful, colours, objects, three};
use testing::mixed::{compare_bound, compare_seeds, Mixed};

/// Compares the mixed cases with these seeds; a difference ends the test.
fn compare_mixed(seeds: Range<u64>) {
    compare_seeds(seeds, |case| case.compare_bounds(lent::bound_prefix));
}

// 200,000 cases, in parts that run side by side.

#[test]
fn mixed_cases_0_to_50_000() {
    compare_mixed(0..50_000);
}

#[test]
fn mixed_cases_50_000_to_100_000() {
    compare_mixed(50_000..100_000);
}

#[test]
fn mixed_cases_100_000_to_150_000() {
    compare_mixed(100_000..150_000);
}

#[test]
fn mixed_cases_150_000_to_200_000() {
    compare_mixed(150_000..200_000);
}

/// So that the comparison is not of dull cases only.
#[test]
fn mixed_cases_meet_every_number_of_the_call() {
    let mut met = BTreeSet::new();
    for case in (0..5_000).map(Mixed::new) {
        let numbers = |prefix: &Vec<u8>| bound_prefix(&case.bytes, prefix).number;
        met.extend(case.prefixes.iter().map(numbers));
    }
    let expected: BTreeSet<u8> = (0..=11).chain([PREFIX]).collect();
    assert_eq!(met, expected);
}

#[test]
fn empty_slices() {
    let nothing = Refusal::CutShort(0).into();
    let own: Box<[u8]> = Box::new([]);
    for empty in [
        &[],
        &own[..],
        &Vec::new()[..],
        &colours([9, 9]).encode()[..0],
    ] {
        assert_eq!(lent::bound_prefix(empty, empty), nothing);
        let bytes = three([3, 3]).encode();
        assert_eq!(compare_bound(&bytes, empty, lent::bound_prefix), Ok(()));
    }
}

/// Problems and prefixes that are answered, refused at a place, and refused without one.
fn different_ends() -> Vec<(Vec<u8>, Vec<u8>)> {
    let good = objects([13, 100, 100]).encode();
    let mut leftover = good.clone();
    leftover.push(0);
    vec![
        (good.clone(), vec![]),
        (good.clone(), vec![0, 0, 1, 0]),
        (good.clone(), vec![0, 2]),
        (good.clone(), vec![0; 5]),
        (good[..good.len() - 1].to_vec(), vec![0]),
        (leftover, vec![0]),
        (vec![], vec![]),
        (vec![0; 60_001], vec![]),
        (brimful().encode(), vec![7, 7, 7]),
    ]
}

#[test]
fn junk_is_overwritten() {
    for (bytes, prefix) in different_ends() {
        for junk in [0, 1, 0x8000_0000, u32::MAX] {
            let (mut least, mut place) = ([u64::from(junk) << 32 | 1; 4], junk);
            let number = write_bound(&bytes, &prefix, &mut least, &mut place);
            let answer = Least {
                number,
                place,
                least,
            };
            assert_eq!(answer, bound_prefix(&bytes, &prefix), "junk {junk:#x}");
        }
    }
}

#[test]
fn nothing_beside_the_answer_is_written() {
    const FENCE: u64 = 0x0123_4567_89ab_cdef;
    for (bytes, prefix) in different_ends() {
        let (bytes_before, prefix_before) = (bytes.clone(), prefix.clone());
        let (mut numbers, mut places) = ([FENCE; 12], [FENCE as u32; 3]);
        let least = (&mut numbers[4..8]).try_into().expect("four numbers");
        write_bound(&bytes, &prefix, least, &mut places[1]);
        let beside = [&numbers[..4], &numbers[8..]].concat();
        assert_eq!(beside, [FENCE; 8]);
        assert_eq!([places[0], places[2]], [FENCE as u32; 2]);
        assert_eq!((bytes, prefix), (bytes_before, prefix_before));
    }
}

/// The numbers of a problem stand at any address, since records have odd lengths.
#[test]
fn any_address_will_do() {
    let bytes = objects([13, 100, 100]).encode();
    for shift in 0..8 {
        let before = vec![0xff; shift];
        let shifted = [&before[..], &bytes].concat();
        let prefix = [&before[..], &[0, 0, 1]].concat();
        let answer = lent::bound_prefix(&shifted[shift..], &prefix[shift..]);
        assert_eq!(answer, bound_prefix(&bytes, &[0, 0, 1]), "shift {shift}");
    }
}

#[test]
fn calls_side_by_side_do_not_disturb_each_other() {
    let run = |first: u64| move || compare_mixed(first..first + 1_000);
    let threads = [0, 300, 600, 900].map(|first| thread::spawn(run(first)));
    for side in threads {
        side.join().expect("a difference is told above");
    }
}
