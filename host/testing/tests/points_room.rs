//! The call for point records of the static library with lists of every length that matters, work
//! buffers around 8,192 numbers, any junk in both, and changed bytes.

use chooser::junk::Rng;
use frontier::lent;
use frontier::lent::{Answer, PointRecord};
use frontier::limits::{LEAST_WORK, MAX_OBJECTIVES, MAX_POINTS, MAX_VARIABLES};
use frontier::refusal::CUT_SHORT;
use frontier::{Problem, Refusal, Table};
use testing::examples::{bent, colours, lone, objects, pair, stairs_of, ten_problems, three};
use testing::point_records::{compare_points, junk_points};
use testing::random::{random_problem, Shape};

/// Asserts that the call answers and leaves list and work as the brute force does, with a list of
/// this length and a good work buffer, both with junk, and gives what it answers.
fn checked_list(bytes: &[u8], length: usize, seed: u64) -> Answer {
    let mut points = junk_points(&mut Rng::new(seed), length);
    let mut work = vec![seed as u32 | 1; LEAST_WORK];
    let compared = compare_points(bytes, &points, &work, lent::list_points);
    assert_eq!(compared, Ok(()));
    lent::list_points(bytes, &mut points, &mut work)
}

/// Asserts the answer for a problem of so many points with a list of this length.
fn assert_length(problem: &Problem, points: usize, length: usize) {
    let expected = if points > length.min(MAX_POINTS) {
        Refusal::Full.into()
    } else {
        Answer::accepted(points)
    };
    let answer = checked_list(&problem.encode(), length, length as u64);
    assert_eq!(answer, expected, "{points} points, {length} records");
}

/// Asserts the answers for a problem of so many points with lists of every length from 0 to 65.
fn assert_every_length(problem: &Problem, points: usize) {
    for length in 0..=MAX_POINTS + 1 {
        assert_length(problem, points, length);
    }
}

#[test]
fn every_length_for_no_point() {
    assert_every_length(&stairs_of(0), 0);
    assert_every_length(&colours([2, 3]), 0);
}

#[test]
fn every_length_for_some_points() {
    assert_every_length(&lone(1, 0), 1);
    assert_every_length(&lone(8, 1), 1);
    assert_every_length(&colours([100, 100]), 2);
    assert_every_length(&three([3, 3]), 3);
    assert_every_length(&objects([13, 100, 100]), 3);
    assert_every_length(&bent([9, 9]), 5);
}

#[test]
fn every_length_for_64_points_and_for_more() {
    for points in [64, 65] {
        assert_every_length(&stairs_of(points as u32), points);
    }
}

#[test]
fn every_number_of_points_with_one_record_too_few_enough_or_more() {
    for points in 0..=MAX_POINTS {
        for length in points.saturating_sub(1)..=points + 1 {
            assert_length(&stairs_of(points as u32), points, length);
        }
    }
}

#[test]
fn room_is_never_above_64() {
    for points in [64, 65, 66, 128] {
        for length in [66, 128, 129, 1_000] {
            assert_length(&stairs_of(points as u32), points, length);
        }
    }
}

/// A problem of these sizes that has one point: every variable but the first has one value, and the
/// second value of the first is the cheap one.
fn sized(variables: usize, objectives: usize) -> Problem {
    let table = |objective: usize| Table::new(objective as u8, &[0], &[9, 7]);
    let mut domains = vec![1; variables];
    domains[0] = 2;
    Problem {
        ceilings: vec![100; objectives],
        domains,
        tables: (0..objectives).map(table).collect(),
    }
}

#[test]
fn unused_costs_and_choices_are_zero() {
    for variables in 1..=MAX_VARIABLES {
        for objectives in 1..=MAX_OBJECTIVES {
            let bytes = sized(variables, objectives).encode();
            let mut expected = PointRecord {
                costs: [0; 4],
                choice: [0; 24],
            };
            expected.costs[..objectives].fill(7);
            expected.choice[0] = 1;
            for seed in 0..4 {
                let before = junk_points(&mut Rng::new(seed), 2);
                let mut points = before.clone();
                let mut work = vec![seed as u32; LEAST_WORK];
                let answer = lent::list_points(&bytes, &mut points, &mut work);
                assert_eq!(answer, Answer::accepted(1));
                assert_eq!(points, [expected, before[1]]);
            }
        }
    }
}

#[test]
fn work_buffers_around_8192_numbers() {
    let bytes = three([3, 3]).encode();
    for length in [0, 1, LEAST_WORK - 1, LEAST_WORK, LEAST_WORK + 1, 70_000] {
        for records in [2, 3, 4] {
            let mut points = junk_points(&mut Rng::new(4), records);
            let mut work = vec![0x55; length];
            let compared = compare_points(&bytes, &points, &work, lent::list_points);
            assert_eq!(compared, Ok(()));
            let answer = lent::list_points(&bytes, &mut points, &mut work);
            let expected = match (length < LEAST_WORK, records < 3) {
                (true, _) => Refusal::Work.into(),
                (false, true) => Refusal::Full.into(),
                (false, false) => Answer::accepted(3),
            };
            assert_eq!(answer, expected, "{length} numbers, {records} records");
        }
    }
}

/// What the call answers and writes into a list of 64 records that held this before.
fn written_over(
    bytes: &[u8],
    mut points: Vec<PointRecord>,
    junk: u32,
) -> (Answer, Vec<PointRecord>) {
    let answer = lent::list_points(bytes, &mut points, &mut vec![junk; LEAST_WORK]);
    points.truncate(answer.count as usize);
    (answer, points)
}

#[test]
fn other_junk_gives_the_same_records() {
    let mut rng = Rng::new(6);
    let mut problems = ten_problems().to_vec();
    problems.extend((0..2_000).map(|_| random_problem(&mut rng, &Shape::small())));
    for (i, problem) in problems.iter().enumerate() {
        let bytes = problem.encode();
        let first = junk_points(&mut rng, MAX_POINTS);
        let expected = written_over(&bytes, first, 0);
        for junk in [1, 3, 0x5555_5555, u32::MAX] {
            let points = junk_points(&mut rng, MAX_POINTS);
            let written = written_over(&bytes, points, junk);
            assert_eq!(written, expected, "problem {i}, junk {junk:#x}");
        }
    }
}

/// One list and one work buffer for many problems, so that each finds what the one before has left;
/// the work buffer, which is then zero, sometimes holds junk after all.
#[test]
fn one_list_for_many_problems() {
    let mut rng = Rng::new(7);
    let mut points = junk_points(&mut rng, MAX_POINTS);
    let mut work = vec![0xa5a5_a5a5; LEAST_WORK];
    for turn in 0..4_000 {
        let bytes = random_problem(&mut rng, &Shape::small()).encode();
        if turn % 5 == 0 {
            work.fill(rng.bits() as u32);
        }
        let compared = compare_points(&bytes, &points, &work, lent::list_points);
        assert_eq!(compared, Ok(()), "turn {turn}");
        lent::list_points(&bytes, &mut points, &mut work);
    }
}

#[test]
fn every_truncation_of_ten_problems() {
    for problem in ten_problems() {
        let bytes = problem.encode();
        for end in 0..bytes.len() {
            let answer = checked_list(&bytes[..end], 5, end as u64);
            assert_eq!(answer.number, CUT_SHORT, "{end} bytes");
        }
    }
}

#[test]
fn every_change_of_one_byte_of_pair() {
    let bytes = pair([9, 9]).encode();
    for place in 0..bytes.len() {
        let mut changed = bytes.clone();
        for change in 1..=255 {
            changed[place] = bytes[place] ^ change;
            checked_list(&changed, 5, u64::from(change));
        }
    }
}
