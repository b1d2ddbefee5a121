//! The call for point records of the static library against the brute force and against the plain
//! call: random problems, what the call writes and leaves alone, and calls side by side.

use std::cell::RefCell;
use std::collections::BTreeSet;
use std::mem::{align_of, offset_of, size_of};
use std::ops::Range;
use std::thread;

use chooser::junk::{junk, Rng};
use frontier::lent::{self, write_points, Answer, Buffers, PointRecord};
use frontier::limits::{LEAST_WORK, MAX_BYTES, MAX_POINTS};
use frontier::refusal::{FULL, WORK};
use frontier::Refusal;
use testing::brute::list_points;
use testing::checker::case::{ask_seeds, Case};
use testing::checker::law::points_law;
use testing::checker::{ensure, Verdict};
use testing::examples::{brimful, colours, objects, stairs_of, three};
use testing::fence::{assert_fences, fenced, inside};
use testing::mixed::compare_seeds;
use testing::point_records::{compare_points, junk_points};

/// With the same room the call and the plain call answer alike, and list the same.
fn plain_law(case: &mut Case) -> Verdict {
    let (p, n) = (case.problem.objectives(), case.problem.variables());
    for room in [MAX_POINTS, case.rng.below(6)] {
        let mut lent = junk(&mut case.rng, room * p, room * n, LEAST_WORK);
        let plain = lent.lend(lent::solve_problem, &case.bytes);
        let mut points = junk_points(&mut case.rng, room);
        let answer = lent::list_points(&case.bytes, &mut points, &mut lent.work);
        ensure(answer == plain, || {
            format!("room {room}: {answer:?}, the plain call {plain:?}")
        })?;
        let listed = lent.costs.chunks(p).zip(lent.choices.chunks(n));
        for ((costs, choice), point) in listed.zip(&points[..answer.count as usize]) {
            let same = point.costs[..p] == *costs && point.choice[..n] == *choice;
            ensure(same, || {
                format!("room {room}: {point:?}, the plain call {costs:?} {choice:?}")
            })?;
        }
    }
    Ok(())
}

/// Asks of the small problems with these seeds that the call answers as the brute force does and as
/// the plain call does.
fn agree_on_seeds(seeds: Range<u64>) {
    ask_seeds(seeds, |case| {
        points_law(case, &lent::list_points)?;
        plain_law(case)
    });
}

// 50,000 small problems, in parts that run side by side.

#[test]
fn small_problems_0_to_25_000() {
    agree_on_seeds(0..25_000);
}

#[test]
fn small_problems_25_000_to_50_000() {
    agree_on_seeds(25_000..50_000);
}

/// Compares the mixed cases with these seeds; a difference ends the test.
fn compare_mixed(seeds: Range<u64>) {
    compare_seeds(seeds, |case| case.compare_points(lent::list_points));
}

#[test]
fn mixed_cases_0_to_20_000() {
    compare_mixed(0..20_000);
}

/// So that the comparison is not of dull cases only.
#[test]
fn mixed_cases_meet_every_number_of_the_call() {
    let met = RefCell::new(BTreeSet::new());
    let noted = |problem: &[u8], points: &mut [PointRecord], work: &mut [u32]| {
        let answer = list_points(problem, points, work);
        met.borrow_mut().insert(answer.number);
        answer
    };
    compare_seeds(0..5_000, |case| case.compare_points(noted));
    let expected: BTreeSet<u8> = (0..=WORK).chain([FULL]).collect();
    assert_eq!(met.into_inner(), expected);
}

/// As the header has it: `tests/c/calls.c` prints the same of the C struct.
#[test]
fn records_have_the_layout_of_c() {
    assert_eq!(
        (size_of::<PointRecord>(), align_of::<PointRecord>()),
        (40, 4)
    );
    assert_eq!(
        (
            offset_of!(PointRecord, costs),
            offset_of!(PointRecord, choice)
        ),
        (0, 16)
    );
}

#[test]
fn empty_slices() {
    let nothing = Refusal::CutShort(0).into();
    let own: Box<[u8]> = Box::new([]);
    for empty in [&[], &own[..], &colours([9, 9]).encode()[..0]] {
        assert_eq!(lent::list_points(empty, &mut [], &mut []), nothing);
    }
    let bytes = three([3, 3]).encode();
    let without_work = lent::list_points(&bytes, &mut [], &mut []);
    assert_eq!(without_work, Refusal::Work.into());
    let mut work = vec![5; LEAST_WORK];
    let without_room = lent::list_points(&bytes, &mut [], &mut work);
    assert_eq!(without_room, Refusal::Full.into());
}

/// Problems with a list and a work buffer for every way to end: answered with and without points,
/// refused with a place and without one, by the problem, the work buffer and the room.
fn different_ends() -> Vec<(Vec<u8>, Vec<PointRecord>, Vec<u32>)> {
    let good = objects([13, 100, 100]).encode();
    let leftover = [&good[..], &[0]].concat();
    let mut rng = Rng::new(1);
    let mut lent = |bytes: &[u8], points: usize, work: usize| {
        let work = vec![rng.bits() as u32 | 1; work];
        (bytes.to_vec(), junk_points(&mut rng, points), work)
    };
    vec![
        lent(&good, 3, LEAST_WORK),
        lent(&good, 9, LEAST_WORK + 5),
        lent(&good, 2, LEAST_WORK),
        lent(&good, 3, LEAST_WORK - 1),
        lent(&good[..good.len() - 1], 3, LEAST_WORK),
        lent(&leftover, 3, LEAST_WORK),
        lent(&objects([1, 1, 1]).encode(), 3, LEAST_WORK),
        lent(&[], 0, 0),
        lent(&[0; MAX_BYTES + 1], 1, LEAST_WORK),
        lent(&brimful().encode(), 70, LEAST_WORK),
        lent(&stairs_of(64).encode(), 70, LEAST_WORK),
        lent(&stairs_of(65).encode(), 99, LEAST_WORK),
    ]
}

#[test]
fn different_ends_agree() {
    for (bytes, points, work) in different_ends() {
        let compared = compare_points(&bytes, &points, &work, lent::list_points);
        assert_eq!(compared, Ok(()));
    }
}

#[test]
fn junk_in_place_and_count_is_overwritten() {
    for (bytes, points, work) in different_ends() {
        let expected = list_points(&bytes, &mut points.clone(), &mut work.clone());
        for junk in [0, 1, 0x8000_0000, u32::MAX] {
            let (mut points, mut work) = (points.clone(), work.clone());
            let (mut place, mut count) = (junk, !junk);
            let number = write_points(&bytes, &mut points, &mut work, &mut place, &mut count);
            let answer = Answer {
                number,
                place,
                count,
            };
            assert_eq!(answer, expected, "junk {junk:#x}");
        }
    }
}

#[test]
fn nothing_beside_the_list_and_the_work_is_written() {
    const WORD: u32 = 0x0123_4567;
    const RECORD: PointRecord = PointRecord {
        costs: [WORD; 4],
        choice: [0xab; 24],
    };
    for (bytes, points, work) in different_ends() {
        let before = bytes.clone();
        let mut points = fenced(&points, RECORD);
        let mut work = fenced(&work, WORD);
        let (mut places, mut counts) = ([WORD; 3], [WORD; 3]);
        write_points(
            &bytes,
            inside(&mut points),
            inside(&mut work),
            &mut places[1],
            &mut counts[1],
        );
        assert_fences(&points, RECORD);
        assert_fences(&work, WORD);
        assert_eq!([places[0], places[2], counts[0], counts[2]], [WORD; 4]);
        assert_eq!(bytes, before);
    }
}

/// The numbers of a problem stand at any address, since records have odd lengths.
#[test]
fn any_address_will_do() {
    let bytes = objects([13, 100, 100]).encode();
    for shift in 0..8 {
        let shifted = [&vec![0xff; shift][..], &bytes].concat();
        let points = junk_points(&mut Rng::new(2), 4);
        let work = Buffers::full().work;
        let compared = compare_points(&shifted[shift..], &points, &work, lent::list_points);
        assert_eq!(compared, Ok(()), "shift {shift}");
    }
}

#[test]
fn calls_side_by_side_do_not_disturb_each_other() {
    let run = |first: u64| move || compare_mixed(first..first + 1_000);
    let threads = [0, 300, 600, 900].map(|first| thread::spawn(run(first)));
    for side in threads {
        side.join().expect("a difference is told above");
    }
}
