//! The cut call of the static library with buffers of every length that matters: rooms 0 to 64,
//! lengths around the need, work buffers around 8,192 numbers, and any junk in them.

use chooser::junk::{junk, Rng};
use frontier::lent;
use frontier::lent::{Answer, Buffers, Halves};
use frontier::limits::{LEAST_WORK, MAX_POINTS};
use frontier::{Problem, Refusal};
use testing::examples::{bent, pair, pair_with_constant, stairs_of};
use testing::mixed::compare_cut;
use testing::random::{parted_problem, Shape};

/// Asserts that the call answers and leaves all buffers as the brute force does, and gives what it
/// answers.
fn checked_cut(bytes: &[u8], sides: &[u8], lent: &Buffers) -> Halves {
    let compared = compare_cut(bytes, sides, lent, lent::solve_cut);
    assert_eq!(compared, Ok(()));
    lent.clone().lend_cut(lent::solve_cut, bytes, sides)
}

/// The answer for so many points, these half sizes and this room.
fn expected_halves(points: usize, [first, second]: [u32; 2], room: usize) -> Halves {
    if points > room.min(MAX_POINTS) {
        return Refusal::Full.into();
    }
    Halves {
        answer: Answer::accepted(points),
        first,
        second,
    }
}

/// The side list that parts the steps of a staircase: those of 64 and of 1 from those of 8.
const STEPS: [u8; 4] = [0, 1, 0, 1];

/// The half sizes of a staircase of so many points, at most 64. For none each half has a point, and their sum is
/// above a ceiling.
fn step_sizes(points: usize) -> [u32; 2] {
    [points.clamp(1, 8) as u32, points.max(1).div_ceil(8) as u32]
}

/// Asserts the answer for a staircase of so many points, with buffers that have this room exactly,
/// that almost have one more, or of which one has more.
fn assert_room(points: usize, room: usize) {
    let bytes = stairs_of(points as u32).encode();
    let mut rng = Rng::new(room as u64);
    let (costs, choices) = (2 * room, 4 * room);
    for (costs, choices) in [
        (costs, choices),
        (costs + 1, choices + 3),
        (costs, choices + 12),
        (costs + 6, choices),
    ] {
        let lent = junk(&mut rng, costs, choices, LEAST_WORK);
        let expected = expected_halves(points, step_sizes(points), room);
        let halves = checked_cut(&bytes, &STEPS, &lent);
        assert_eq!(halves, expected, "{points} points, room {room}");
    }
}

#[test]
fn every_room_is_one_too_few_enough_or_more() {
    for room in 0..=MAX_POINTS {
        for points in room.saturating_sub(1)..=room + 1 {
            assert_room(points, room);
        }
    }
}

#[test]
fn every_room_for_64_points() {
    for room in 0..=MAX_POINTS {
        assert_room(MAX_POINTS, room);
    }
}

#[test]
fn room_is_never_above_64() {
    for (points, length) in [(64, 256), (64, 9_999), (65, 260), (65, 9_999), (128, 9_999)] {
        let bytes = stairs_of(points as u32).encode();
        let lent = junk(&mut Rng::new(2), length, length, LEAST_WORK);
        let expected = expected_halves(points, [8, 8], length);
        assert_eq!(checked_cut(&bytes, &STEPS, &lent), expected);
    }
}

/// Asserts the answers for all lengths from 0 to some above what so many points need.
fn assert_every_length(problem: &Problem, points: usize, sizes: [u32; 2]) {
    let (p, n, bytes) = (problem.objectives(), problem.variables(), problem.encode());
    let mut rng = Rng::new(3);
    for costs in 0..=(points + 1) * p + 1 {
        for choices in 0..=(points + 1) * n + 1 {
            let lent = junk(&mut rng, costs, choices, LEAST_WORK);
            let room = (costs / p).min(choices / n);
            let expected = expected_halves(points, sizes, room);
            assert_eq!(checked_cut(&bytes, &[0, 1], &lent), expected);
        }
    }
}

/// Where no choice is allowed, or no sum, room 0 is enough.
#[test]
fn every_length_around_the_need() {
    assert_every_length(&pair([9, 9]), 3, [2, 2]);
    assert_every_length(&pair([2, 2]), 3, [2, 2]);
    assert_every_length(&pair([1, 1]), 1, [2, 2]);
    assert_every_length(&bent([9, 9]), 5, [3, 3]);
    assert_every_length(&pair([9, 0]), 1, [1, 1]);
    assert_every_length(&pair([0, 0]), 0, [0, 0]);
    assert_every_length(&pair_with_constant([1, 1]), 0, [1, 2]);
}

#[test]
fn work_buffers_around_8192_numbers() {
    let bytes = pair([9, 9]).encode();
    for length in [0, 1, LEAST_WORK - 1, LEAST_WORK, LEAST_WORK + 1, 70_000] {
        for room in [2, 3] {
            let lent = junk(&mut Rng::new(4), 2 * room, 2 * room, length);
            let expected = match length < LEAST_WORK {
                true => Refusal::Work.into(),
                false => expected_halves(3, [2, 2], room),
            };
            assert_eq!(checked_cut(&bytes, &[0, 1], &lent), expected);
        }
    }
}

/// What a call answers and lists from buffers with room for 64 points that held this before.
fn listed_over(problem: &Problem, sides: &[u8], mut lent: Buffers) -> (Halves, Vec<u32>, Vec<u8>) {
    let halves = lent.lend_cut(lent::solve_cut, &problem.encode(), sides);
    let listed = halves.answer.count as usize;
    lent.costs.truncate(listed * problem.objectives());
    lent.choices.truncate(listed * problem.variables());
    (halves, lent.costs, lent.choices)
}

/// Buffers with room for 64 points that hold one byte all over.
fn filled(byte: u8) -> Buffers {
    let mut lent = Buffers::full();
    lent.costs.fill(u32::from_le_bytes([byte; 4]));
    lent.choices.fill(byte);
    lent.work.fill(u32::from_le_bytes([byte; 4]));
    lent
}

#[test]
fn other_junk_gives_the_same_bytes() {
    let mut rng = Rng::new(6);
    let stairs = [64, 65].map(|points| (stairs_of(points), STEPS.to_vec()));
    let random = (0..3_000).map(|_| parted_problem(&mut rng, &Shape::small()));
    let cuts: Vec<(Problem, Vec<u8>)> = stairs.into_iter().chain(random).collect();
    for (i, (problem, sides)) in cuts.iter().enumerate() {
        let expected = listed_over(problem, sides, Buffers::full());
        let mut held = vec![junk(&mut rng, 256, 64 * 24, LEAST_WORK)];
        held.extend([0, 1, 0x55, 0xff].map(filled));
        for lent in held {
            let byte = lent.choices[0];
            let listed = listed_over(problem, sides, lent);
            assert_eq!(
                listed, expected,
                "problem {i}, sides {sides:?}, junk {byte}"
            );
        }
    }
}

/// One set of buffers for many problems, so that each finds what the one before has left; the work
/// buffer, which is then zero, sometimes holds junk after all.
#[test]
fn one_set_of_buffers_for_many_problems() {
    let mut rng = Rng::new(7);
    let mut lent = filled(0xa5);
    for turn in 0..4_000 {
        let (problem, sides) = parted_problem(&mut rng, &Shape::small());
        if turn % 5 == 0 {
            lent.work.fill(rng.bits() as u32);
        }
        let bytes = problem.encode();
        checked_cut(&bytes, &sides, &lent);
        lent.lend_cut(lent::solve_cut, &bytes, &sides);
    }
}
