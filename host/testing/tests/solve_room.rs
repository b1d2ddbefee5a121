//! The plain call of the static library with buffers of every length that matters: rooms 0 to 64,
//! lengths around the need, work buffers around 8,192 numbers, and any junk in them.

use chooser::junk::{junk, Rng};
use frontier::lent;
use frontier::lent::{Answer, Buffers};
use frontier::limits::{LEAST_WORK, MAX_BYTES, MAX_POINTS};
use frontier::{Problem, Refusal};
use testing::examples::{
    bent, colours, every_arity, lone, objects, stairs_of, ten_problems, three,
};
use testing::mixed::compare_solve;
use testing::random::{random_problem, Shape};

/// Asserts that the call gives this answer, and leaves all buffers as the brute force does.
fn assert_answer(bytes: &[u8], lent: &Buffers, expected: Answer) {
    assert_eq!(compare_solve(bytes, lent, lent::solve_problem), Ok(()));
    let answer = lent.clone().lend(lent::solve_problem, bytes);
    assert_eq!(answer, expected);
}

/// The answer for so many points and this room.
fn expected_answer(points: usize, room: usize) -> Answer {
    if points > room.min(MAX_POINTS) {
        return Refusal::Full.into();
    }
    Answer::accepted(points)
}

/// A problem of so many points in rising order, with two objectives and more that cost nothing.
fn stairs(points: usize, objectives: usize) -> Problem {
    let mut problem = stairs_of(points as u32);
    problem.ceilings.resize(objectives, 1);
    problem
}

/// Asserts the answer for a problem of so many points with buffers that have this room exactly,
/// that almost have one more, or of which one has more.
fn assert_room(problem: &Problem, points: usize, room: usize) {
    let (p, n, bytes) = (problem.objectives(), problem.variables(), problem.encode());
    let (costs, choices) = (room * p, room * n);
    let mut rng = Rng::new(room as u64);
    for (costs, choices) in [
        (costs, choices),
        (costs + p - 1, choices + n - 1),
        (costs, choices + 3 * n),
        (costs + 3 * p, choices),
    ] {
        let lent = junk(&mut rng, costs, choices, LEAST_WORK);
        assert_answer(&bytes, &lent, expected_answer(points, room));
    }
}

#[test]
fn every_room_is_one_too_few_enough_or_more() {
    for room in 0..=MAX_POINTS {
        for points in room.saturating_sub(1)..=room + 1 {
            assert_room(&stairs(points, 2), points, room);
        }
    }
}

#[test]
fn every_room_with_three_and_four_objectives() {
    for objectives in [3, 4] {
        for room in 0..=MAX_POINTS {
            assert_room(&stairs(room, objectives), room, room);
            assert_room(&stairs(room + 1, objectives), room + 1, room);
        }
    }
}

#[test]
fn room_is_never_above_64() {
    for (points, length) in [(64, 256), (64, 9_999), (65, 260), (65, 9_999), (128, 9_999)] {
        let bytes = stairs(points, 2).encode();
        let lent = junk(&mut Rng::new(2), length, length, LEAST_WORK);
        assert_answer(&bytes, &lent, expected_answer(points, length));
    }
}

/// Asserts the answers for all lengths from 0 to some above what so many points need.
fn assert_every_length(problem: &Problem, points: usize) {
    let (p, n, bytes) = (problem.objectives(), problem.variables(), problem.encode());
    let mut rng = Rng::new(3);
    for costs in 0..=(points + 1) * p + 1 {
        for choices in 0..=(points + 1) * n + 1 {
            let lent = junk(&mut rng, costs, choices, LEAST_WORK);
            let room = (costs / p).min(choices / n);
            assert_answer(&bytes, &lent, expected_answer(points, room));
        }
    }
}

#[test]
fn every_length_around_the_need() {
    assert_every_length(&lone(8, 1), 1);
    assert_every_length(&lone(1, 0), 1);
    assert_every_length(&stairs_of(0), 0);
    assert_every_length(&colours([100, 100]), 2);
    assert_every_length(&three([3, 3]), 3);
    assert_every_length(&objects([13, 100, 100]), 3);
    assert_every_length(&bent([9, 9]), 5);
    assert_every_length(&every_arity(), 0);
    assert_every_length(&stairs(4, 4), 4);
}

#[test]
fn work_buffers_around_8192_numbers() {
    let (few, full) = (three([3, 3]).encode(), stairs(4, 2).encode());
    for length in [0, 1, LEAST_WORK - 1, LEAST_WORK, LEAST_WORK + 1, 70_000] {
        let lent = junk(&mut Rng::new(4), 6, 12, length);
        if length < LEAST_WORK {
            assert_answer(&few, &lent, Refusal::Work.into());
            assert_answer(&full, &lent, Refusal::Work.into());
        } else {
            assert_answer(&few, &lent, Answer::accepted(3));
            assert_answer(&full, &lent, Refusal::Full.into());
        }
    }
}

/// A fault of the bytes comes before a short work buffer, and that before a lack of room.
#[test]
fn faults_are_told_in_order() {
    let bytes = colours([100, 100]).encode();
    let short = junk(&mut Rng::new(5), 0, 0, 0);
    assert_answer(&bytes[..154], &short, Refusal::CutShort(133).into());
    assert_answer(&vec![0; MAX_BYTES + 1], &short, Refusal::Oversize.into());
    assert_answer(&bytes, &short, Refusal::Work.into());
    let without_room = junk(&mut Rng::new(5), 0, 0, LEAST_WORK);
    assert_answer(&bytes, &without_room, Refusal::Full.into());
}

/// What a call answers and lists from buffers with room for 64 points that held this before.
fn listed_over(bytes: &[u8], mut lent: Buffers) -> (Answer, Vec<u32>, Vec<u8>) {
    let answer = lent.lend(lent::solve_problem, bytes);
    let listed = answer.count as usize;
    let (n, p) = (usize::from(bytes[2]), usize::from(bytes[3]));
    lent.costs.truncate(listed * p);
    lent.choices.truncate(listed * n);
    (answer, lent.costs, lent.choices)
}

/// Buffers with room for 64 points that hold one byte all over.
fn filled(byte: u8) -> Buffers {
    let mut lent = Buffers::full();
    lent.costs.fill(u32::from_le_bytes([byte; 4]));
    lent.choices.fill(byte);
    lent.work.fill(u32::from_le_bytes([byte; 4]));
    lent
}

#[test]
fn other_junk_gives_the_same_bytes() {
    let mut rng = Rng::new(6);
    let mut problems = ten_problems().to_vec();
    problems.extend((0..2_000).map(|_| random_problem(&mut rng, &Shape::small())));
    for problem in problems {
        let bytes = problem.encode();
        let expected = listed_over(&bytes, Buffers::full());
        for byte in [0, 1, 0x55, 0xff] {
            assert_eq!(
                listed_over(&bytes, filled(byte)),
                expected,
                "junk {byte:#x}"
            );
        }
        let random = junk(&mut rng, 256, 64 * 24, LEAST_WORK);
        assert_eq!(listed_over(&bytes, random), expected);
    }
}

/// One set of buffers for many problems, so that each finds what the one before has left; the work
/// buffer, which is then zero, sometimes holds junk after all.
#[test]
fn one_set_of_buffers_for_many_problems() {
    let mut rng = Rng::new(7);
    let mut lent = filled(0xa5);
    for turn in 0..4_000 {
        let bytes = random_problem(&mut rng, &Shape::small()).encode();
        if turn % 5 == 0 {
            lent.work.fill(rng.bits() as u32);
        }
        assert_eq!(compare_solve(&bytes, &lent, lent::solve_problem), Ok(()));
        lent.lend(lent::solve_problem, &bytes);
    }
}
