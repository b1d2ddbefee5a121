//! The plain call of the static library against the brute force: random problems, what the call
//! writes and leaves alone, and calls side by side.

use std::collections::BTreeSet;
use std::ops::Range;
use std::thread;

use chooser::junk::{junk, Rng};
use frontier::lent::{self, write_solve, Answer, Buffers};
use frontier::limits::{LEAST_WORK, MAX_BYTES};
use frontier::refusal::{FULL, WORK};
use frontier::Refusal;
use testing::brute::solve_problem;
use testing::checker::case::ask_seeds;
use testing::checker::law::agreement_law;
use testing::examples::{brimful, colours, objects, stairs_of, three};
use testing::fence::{assert_fences, fenced, inside};
use testing::mixed::{compare_seeds, compare_solve, Mixed};

/// Asks of the small problems with these seeds that the call answers as the brute force does, with
/// junk in buffers of the exact lengths and of lengths around them.
fn agree_on_seeds(seeds: Range<u64>) {
    ask_seeds(seeds, |case| agreement_law(case, &lent::solve_problem));
}

// 200,000 small problems, in parts that run side by side.

#[test]
fn small_problems_0_to_50_000() {
    agree_on_seeds(0..50_000);
}

#[test]
fn small_problems_50_000_to_100_000() {
    agree_on_seeds(50_000..100_000);
}

#[test]
fn small_problems_100_000_to_150_000() {
    agree_on_seeds(100_000..150_000);
}

#[test]
fn small_problems_150_000_to_200_000() {
    agree_on_seeds(150_000..200_000);
}

/// Compares the mixed cases with these seeds; a difference ends the test.
fn compare_mixed(seeds: Range<u64>) {
    compare_seeds(seeds, |case| case.compare_solve(lent::solve_problem));
}

#[test]
fn mixed_cases_0_to_20_000() {
    compare_mixed(0..20_000);
}

#[test]
fn mixed_cases_20_000_to_40_000() {
    compare_mixed(20_000..40_000);
}

/// So that the comparison is not of dull cases only.
#[test]
fn mixed_cases_meet_every_number_of_the_call() {
    let mut met = BTreeSet::new();
    for mut case in (0..5_000).map(Mixed::new) {
        met.insert(case.lent.lend(solve_problem, &case.bytes).number);
    }
    let expected: BTreeSet<u8> = (0..=WORK).chain([FULL]).collect();
    assert_eq!(met, expected);
}

#[test]
fn empty_slices() {
    let nothing = Refusal::CutShort(0).into();
    let own: Box<[u8]> = Box::new([]);
    for empty in [&[], &own[..], &colours([9, 9]).encode()[..0]] {
        let answer = lent::solve_problem(empty, &mut [], &mut [], &mut []);
        assert_eq!(answer, nothing);
    }
    let bytes = three([3, 3]).encode();
    let without_work = lent::solve_problem(&bytes, &mut [], &mut [], &mut []);
    assert_eq!(without_work, Refusal::Work.into());
    let mut work = vec![5; LEAST_WORK];
    let without_room = lent::solve_problem(&bytes, &mut [], &mut [], &mut work);
    assert_eq!(without_room, Refusal::Full.into());
}

/// Problems and buffers for every way to end: answered with and without points, refused with a
/// place and without one, by the problem, the work buffer and the room.
fn different_ends() -> Vec<(Vec<u8>, Buffers)> {
    let good = objects([13, 100, 100]).encode();
    let mut leftover = good.clone();
    leftover.push(0);
    let mut rng = Rng::new(1);
    let mut lent = |points: usize, work: usize| junk(&mut rng, 3 * points, 4 * points, work);
    vec![
        (good.clone(), lent(3, LEAST_WORK)),
        (good.clone(), lent(9, LEAST_WORK + 5)),
        (good.clone(), lent(2, LEAST_WORK)),
        (good.clone(), lent(3, LEAST_WORK - 1)),
        (good[..good.len() - 1].to_vec(), lent(3, LEAST_WORK)),
        (leftover, lent(3, LEAST_WORK)),
        (objects([1, 1, 1]).encode(), lent(3, LEAST_WORK)),
        (vec![], lent(0, 0)),
        (vec![0; MAX_BYTES + 1], lent(1, LEAST_WORK)),
        (brimful().encode(), lent(70, LEAST_WORK)),
        (stairs_of(64).encode(), lent(70, LEAST_WORK)),
        (stairs_of(65).encode(), lent(99, LEAST_WORK)),
    ]
}

#[test]
fn different_ends_agree() {
    for (bytes, lent) in different_ends() {
        let compared = compare_solve(&bytes, &lent, lent::solve_problem);
        assert_eq!(compared, Ok(()));
    }
}

/// The call as C has it, with junk where it writes its place and count.
fn solve_over_junk(bytes: &[u8], mut lent: Buffers, junk: u32) -> Answer {
    let (mut place, mut count) = (junk, !junk);
    let (costs, choices) = (&mut lent.costs, &mut lent.choices);
    let number = write_solve(
        bytes,
        costs,
        choices,
        &mut lent.work,
        &mut place,
        &mut count,
    );
    Answer {
        number,
        place,
        count,
    }
}

#[test]
fn junk_in_place_and_count_is_overwritten() {
    for (bytes, lent) in different_ends() {
        let expected = lent.clone().lend(solve_problem, &bytes);
        for junk in [0, 1, 0x8000_0000, u32::MAX] {
            let answer = solve_over_junk(&bytes, lent.clone(), junk);
            assert_eq!(answer, expected, "junk {junk:#x}");
        }
    }
}

#[test]
fn nothing_beside_the_buffers_is_written() {
    const WORD: u32 = 0x0123_4567;
    const BYTE: u8 = 0xab;
    for (bytes, lent) in different_ends() {
        let before = bytes.clone();
        let mut costs = fenced(&lent.costs, WORD);
        let mut choices = fenced(&lent.choices, BYTE);
        let mut work = fenced(&lent.work, WORD);
        let (mut places, mut counts) = ([WORD; 3], [WORD; 3]);
        write_solve(
            &bytes,
            inside(&mut costs),
            inside(&mut choices),
            inside(&mut work),
            &mut places[1],
            &mut counts[1],
        );
        assert_fences(&costs, WORD);
        assert_fences(&choices, BYTE);
        assert_fences(&work, WORD);
        assert_eq!([places[0], places[2], counts[0], counts[2]], [WORD; 4]);
        assert_eq!(bytes, before);
    }
}

/// The numbers of a problem stand at any address, since records have odd lengths, and so do the
/// choices.
#[test]
fn any_address_will_do() {
    let bytes = objects([13, 100, 100]).encode();
    let mut expected = Buffers::full();
    let answer = expected.lend(solve_problem, &bytes);
    for shift in 0..8 {
        let shifted = [&vec![0xff; shift][..], &bytes].concat();
        let mut lent = Buffers::full();
        lent.choices.resize(lent.choices.len() + shift, 0);
        let choices = &mut lent.choices[shift..];
        let shifted_answer =
            lent::solve_problem(&shifted[shift..], &mut lent.costs, choices, &mut lent.work);
        assert_eq!(shifted_answer, answer, "shift {shift}");
        assert_eq!(*choices, expected.choices, "shift {shift}");
        assert_eq!(lent.costs, expected.costs, "shift {shift}");
    }
}

#[test]
fn calls_side_by_side_do_not_disturb_each_other() {
    let run = |first: u64| move || compare_mixed(first..first + 1_000);
    let threads = [0, 300, 600, 900].map(|first| thread::spawn(run(first)));
    for side in threads {
        side.join().expect("a difference is told above");
    }
}
