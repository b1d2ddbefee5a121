//! The cut call of the static library on halves of every kind: unequal and empty ones, with arity-0
//! records, with around 64 points, and with many more pairs than points.

use chooser::junk::{junk, Rng};
use frontier::lent;
use frontier::lent::Answer;
use frontier::limits::{LEAST_WORK, MAX_OBJECTIVES, MAX_POINTS, MAX_VARIABLES};
use frontier::refusal::{FULL, LINKED};
use frontier::{Problem, Refusal, Table, FORBIDDEN};
use testing::examples::{pair_with_constant, stairs_of, ten_problems};
use testing::mixed::compare_cut;
use testing::owned::{cut_by, frontier_by, Cut, Listed};

/// Asserts that the call answers as the brute force does with this room, and gives its answer.
fn cut_with_room(problem: &Problem, sides: &[u8], room: usize) -> Answer {
    let (p, n, bytes) = (problem.objectives(), problem.variables(), problem.encode());
    let mut lent = junk(&mut Rng::new(1), room * p, room * n, LEAST_WORK);
    let compared = compare_cut(&bytes, sides, &lent, lent::solve_cut);
    assert_eq!(compared, Ok(()));
    lent.lend_cut(lent::solve_cut, &bytes, sides).answer
}

/// What the call lists with room for 64 points. It must be what the brute force lists and, where it
/// is not refused, what the plain call lists.
fn cut(problem: &Problem, sides: &[u8]) -> Result<Cut, Refusal> {
    cut_with_room(problem, sides, MAX_POINTS);
    let bytes = problem.encode();
    let (list, sizes) = cut_by(lent::solve_cut, &bytes, sides)?;
    let whole = frontier_by(lent::solve_problem, &bytes);
    assert_eq!(whole.as_ref(), Ok(&list), "sides {sides:?}");
    Ok((list, sizes))
}

/// The same with the list's length only.
fn cut_sizes(problem: &Problem, sides: &[u8]) -> Result<(usize, [u32; 2]), Refusal> {
    cut(problem, sides).map(|(list, sizes)| (list.len(), sizes))
}

/// All side lists for so many variables.
fn all_sides(variables: usize) -> Vec<Vec<u8>> {
    let side = |bits: usize, v: usize| (bits >> v & 1) as u8;
    let sides = |bits: usize| (0..variables).map(|v| side(bits, v)).collect();
    (0..1 << variables).map(sides).collect()
}

#[test]
fn every_cut_of_ten_problems() {
    let (mut accepted, mut linked) = (0, 0);
    for problem in ten_problems() {
        for sides in all_sides(problem.variables()) {
            match cut(&problem, &sides) {
                Ok(_) => accepted += 1,
                Err(refusal) => {
                    assert_eq!(refusal.number(), LINKED, "sides {sides:?}");
                    linked += 1;
                }
            }
        }
    }
    assert_eq!((accepted, linked), (38, 66));
}

#[test]
fn unequal_halves() {
    // Up to 63 only variables 1 and 2 have a choice left, of eight values each.
    for sides in all_sides(4) {
        let chosen = |side: u8| sides[1..3].iter().filter(|&&s| s == side).count();
        let sizes = [0, 1].map(|side| 8_u32.pow(chosen(side) as u32));
        let cut = cut_sizes(&stairs_of(64), &sides);
        assert_eq!(cut, Ok((64, sizes)), "sides {sides:?}");
    }
}

#[test]
fn all_variables_on_one_side() {
    for problem in ten_problems() {
        let n = problem.variables();
        if problem.tables.iter().all(|table| !table.scope.is_empty()) {
            let (list, sizes) = cut_sizes(&problem, &vec![0; n]).expect("not linked");
            assert_eq!(sizes, [list as u32, 1]);
            let exchanged = cut_sizes(&problem, &vec![1; n]);
            assert_eq!(exchanged, Ok((list, [1, list as u32])));
        }
    }
}

/// A variable of three values and one of two, both as in Three, and a charge of 1 on objective 0.
fn stepped(ceilings: [u32; 2]) -> Problem {
    Problem {
        ceilings: ceilings.to_vec(),
        domains: vec![3, 2],
        tables: vec![
            Table::new(0, &[0], &[0, 1, 2]),
            Table::new(1, &[0], &[2, 1, 0]),
            Table::new(0, &[1], &[0, 1]),
            Table::new(1, &[1], &[1, 0]),
            Table::new(0, &[], &[1]),
        ],
    }
}

#[test]
fn an_exchange_moves_the_arity_0_record() {
    let list = vec![Listed::new(&[1, 3], &[0, 0]), Listed::new(&[2, 2], &[0, 1])];
    let problem = stepped([2, 9]);
    assert_eq!(cut(&problem, &[0, 1]), Ok((list.clone(), [2, 2])));
    assert_eq!(cut(&problem, &[1, 0]), Ok((list, [2, 3])));
}

#[test]
fn an_empty_half_0_has_the_arity_0_record() {
    let tight = pair_with_constant([1, 9]);
    assert_eq!(cut_sizes(&tight, &[0, 0]), Ok((1, [1, 1])));
    assert_eq!(cut_sizes(&tight, &[1, 1]), Ok((1, [1, 2])));
    // Now the charge alone is above its ceiling.
    let tighter = pair_with_constant([0, 9]);
    for sides in all_sides(2) {
        assert_eq!(cut_sizes(&tighter, &sides), Ok((0, [0, 1])), "{sides:?}");
    }
}

/// A half may have 64 points and no more, also where a charge on the other half leaves so few sums
/// within the ceiling that the plain call lists them.
#[test]
fn halves_around_64_points() {
    for (points, charge) in [
        (63, 0),
        (64, 0),
        (65, 0),
        (63, 60),
        (64, 60),
        (65, 60),
        (100, 60),
    ] {
        let mut problem = stairs_of(points);
        problem.tables.push(Table::new(0, &[3], &[charge]));
        let list = (points - charge) as usize;
        if list <= MAX_POINTS {
            let whole = frontier_by(lent::solve_problem, &problem.encode());
            assert_eq!(whole.map(|whole| whole.len()), Ok(list));
        }
        let expected = |sizes: [u32; 2]| match points > 64 {
            true => Err(Refusal::Full),
            false => Ok((list, sizes)),
        };
        let cuts = [[0, 0, 0, 1], [1, 1, 1, 0]].map(|sides| cut_sizes(&problem, &sides));
        assert_eq!(cuts, [expected([points, 1]), expected([1, points])]);
    }
}

/// Two staircases of 64 points, from (0, 63) to (63, 0), on variables 0 and 2, and on 1 and 3.
fn two_staircases(ceilings: [u32; 2]) -> Problem {
    let tables = [(0, 8), (1, 8), (2, 1), (3, 1)].map(|(v, weight)| {
        let rising = [0, 1, 2, 3, 4, 5, 6, 7].map(|value| value * weight);
        let falling = [7, 6, 5, 4, 3, 2, 1, 0].map(|value| value * weight);
        [Table::new(0, &[v], &rising), Table::new(1, &[v], &falling)]
    });
    Problem {
        ceilings: ceilings.to_vec(),
        domains: vec![8; 4],
        tables: tables.concat(),
    }
}

/// The sums are (s, 126 - s), each in up to 64 pairs; the ceilings leave those around the middle.
/// The same with all the variables and objectives there may be, of which the new cost nothing.
#[test]
fn the_sums_of_4096_pairs() {
    for (more, also) in [(0, 0), (1, 0), (31, 32), (0, 63), (32, 32), (1, 63)] {
        let problem = two_staircases([63 + more, 63 + also]);
        let mut wide = problem.clone();
        wide.ceilings.resize(MAX_OBJECTIVES, 1);
        wide.domains.resize(MAX_VARIABLES, 1);
        let points = (more + also + 1) as usize;
        let expected = match points > MAX_POINTS {
            true => Err(Refusal::Full),
            false => Ok((points, [64, 64])),
        };
        for sides in [[0, 1, 0, 1], [1, 0, 1, 0]] {
            assert_eq!(cut_sizes(&problem, &sides), expected, "{points} points");
            let wide_cut = cut_with_room(&wide, &sides.repeat(6), MAX_POINTS);
            assert_eq!(wide_cut.number == 0, expected.is_ok(), "{points} points");
        }
    }
    for sides in all_sides(4) {
        let (list, _) = cut(&two_staircases([63, 63]), &sides).expect("one point");
        assert_eq!(list, [Listed::new(&[63, 63], &[0, 7, 0, 7])]);
    }
}

/// Bulging: a half of three points, and one of 64, of which all but the first and the last stand
/// out so far that every sum with them is beaten. Some of these are beaten only by the last pairs,
/// so that more than 64 sums are unbeaten on the way, whichever half is gone through first.
fn bulging(objectives: [u8; 2]) -> Problem {
    let [one, other] = objectives;
    let rising: Vec<u32> = [0].into_iter().chain(192..254).chain([256]).collect();
    let falling: Vec<u32> = [0].into_iter().chain(130..192).chain([256]).rev().collect();
    Problem {
        ceilings: vec![999, 999],
        domains: vec![3, 8, 8],
        tables: vec![
            Table::new(one, &[0], &[0, 64, 128]),
            Table::new(other, &[0], &[128, 64, 0]),
            Table::new(one, &[1, 2], &rising),
            Table::new(other, &[1, 2], &falling),
        ],
    }
}

#[test]
fn a_long_list_on_the_way_to_a_short_one() {
    // With the objectives exchanged both lists are turned round, and so is the way.
    for problem in [bulging([0, 1]), bulging([1, 0])] {
        assert_eq!(cut_sizes(&problem, &[0, 1, 1]), Ok((6, [3, 64])));
        assert_eq!(cut_sizes(&problem, &[1, 0, 0]), Ok((6, [64, 3])));
        for sides in [[0, 1, 1], [1, 0, 0]] {
            assert_eq!(cut_with_room(&problem, &sides, 6), Answer::accepted(6));
            assert_eq!(cut_with_room(&problem, &sides, 5).number, FULL);
        }
    }
}

/// Two variables of one value with a charge each, under one ceiling.
fn charged(charges: [u32; 2], ceiling: u32) -> Problem {
    Problem {
        ceilings: vec![ceiling],
        domains: vec![1, 1],
        tables: vec![
            Table::new(0, &[0], &charges[..1]),
            Table::new(0, &[1], &charges[1..]),
        ],
    }
}

#[test]
fn sums_at_their_ceiling_and_above_32_bits() {
    const HALF: u32 = 0x8000_0000;
    for (charges, ceiling, points) in [
        ([0, 0], 0, 1),
        ([1, 1], 2, 1),
        ([1, 1], 1, 0),
        ([HALF - 1, HALF - 1], FORBIDDEN - 1, 1),
        ([HALF - 1, HALF], FORBIDDEN - 1, 0),
        ([HALF - 1, HALF], FORBIDDEN, 1),
        ([FORBIDDEN - 1, 1], FORBIDDEN, 1),
        ([HALF, HALF], FORBIDDEN, 0),
        ([FORBIDDEN - 1, FORBIDDEN - 1], FORBIDDEN, 0),
    ] {
        let problem = charged(charges, ceiling);
        assert_eq!(cut_sizes(&problem, &[0, 1]), Ok((points, [1, 1])));
        let without_room = cut_with_room(&problem, &[1, 0], 0);
        assert_eq!(without_room.number == 0, points == 0);
    }
}
