//! Test vectors beyond the table of the reference, section 12.

use frontier::lent;
use frontier::lent::{Answer, CutCall, PointRecord, SolveCall};
use frontier::limits::LEAST_WORK;
use frontier::{Problem, Table, FORBIDDEN};
use testing::brute::{bound_prefix, list_points, solve_cut, solve_problem};
use testing::examples::{
    all_clauses, colours, colours_first, constant, days_and_gain, objects, pair_with_constant,
    unary, xor,
};
use testing::owned::{cut_by, frontier_by, Listed};

/// The flat calls of the brute force and of the static library; each vector is asked of both.
const SOLVE_CALLS: [SolveCall; 2] = [solve_problem, lent::solve_problem];

/// The cut calls of both.
const CUT_CALLS: [CutCall; 2] = [solve_cut, lent::solve_cut];

/// Asserts that both calls list exactly these points.
fn assert_points(problem: &Problem, expected: &[(&[u32], &[u8])]) {
    let listed = |points: &[(&[u32], &[u8])]| -> Vec<Listed> {
        points.iter().map(|(c, x)| Listed::new(c, x)).collect()
    };
    for call in SOLVE_CALLS {
        let list = frontier_by(call, &problem.encode());
        assert_eq!(list, Ok(listed(expected)));
    }
}

/// The three points of Objects, in rising order.
const OBJECTS: [(&[u32], &[u8]); 3] = [
    (&[5, 5, 5], &[0, 1, 1, 0]),
    (&[6, 3, 7], &[0, 0, 1, 1]),
    (&[10, 2, 3], &[0, 0, 1, 0]),
];

#[test]
fn objects_under_other_ceilings() {
    let problem = objects([13, 100, 100]);
    assert_eq!((problem.tables.len(), problem.encode().len()), (16, 274));
    assert_points(&problem, &OBJECTS);
    assert_points(&objects([13, 4, 6]), &OBJECTS[2..]);
    assert_points(&objects([13, 5, 6]), &[OBJECTS[0], OBJECTS[2]]);
    assert_points(&objects([13, 6, 6]), &[OBJECTS[0], OBJECTS[2]]);
    assert_points(&objects([9, 100, 100]), &OBJECTS[..2]);
    assert_points(&objects([10, 100, 100]), &OBJECTS);
    assert_points(&objects([FORBIDDEN; 3]), &OBJECTS);
}

#[test]
fn objects_needs_room_3_and_no_more() {
    let bytes = objects([13, 100, 100]).encode();
    let mut work = vec![9; LEAST_WORK];
    for solve in SOLVE_CALLS {
        let answer = solve(&bytes, &mut [0; 9], &mut [0; 12], &mut work);
        assert_eq!(answer, Answer::accepted(3));
        for (costs, choices) in [(8, 12), (9, 11)] {
            let (mut costs, mut choices) = (vec![9; costs], vec![9; choices]);
            let answer = solve(&bytes, &mut costs, &mut choices, &mut work);
            assert_eq!((answer.number, answer.place, answer.count), (15, 0, 0));
        }
    }
}

#[test]
fn objects_in_point_records() {
    let junk = PointRecord {
        costs: [9; 4],
        choice: [9; 24],
    };
    let bytes = objects([13, 100, 100]).encode();
    for list in [list_points, lent::list_points] {
        let mut points = [junk; 5];
        let answer = list(&bytes, &mut points, &mut vec![9; LEAST_WORK]);
        assert_eq!(answer, Answer::accepted(3));
        assert_eq!(points[1].costs, [6, 3, 7, 0]);
        assert_eq!(points[1].choice[..4], [0, 0, 1, 1]);
        assert_eq!(points[1].choice[4..], [0; 20]);
        assert_eq!(points[3..], [junk; 2]);
    }
}

/// The problem of the variables `from` and later, renumbered, with the tables within them.
fn doll(problem: &Problem, from: u8) -> Problem {
    let inside = |table: &&Table| table.scope.iter().all(|&v| v >= from);
    let shift = |table: &Table| Table {
        scope: table.scope.iter().map(|v| v - from).collect(),
        ..table.clone()
    };
    Problem {
        ceilings: problem.ceilings.clone(),
        domains: problem.domains[usize::from(from)..].to_vec(),
        tables: problem.tables.iter().filter(inside).map(shift).collect(),
    }
}

#[test]
fn a_doll_of_objects_is_longer_than_its_frontier() {
    let problem = objects([13, 100, 100]);
    for call in SOLVE_CALLS {
        let size = |from| frontier_by(call, &doll(&problem, from).encode()).map(|list| list.len());
        assert_eq!([3, 2, 1, 0].map(size), [2, 3, 4, 3].map(Ok));
    }
}

#[test]
fn bounds_of_objects() {
    let bytes = objects([13, 100, 100]).encode();
    let bounds: [(&[u8], [u64; 4]); 5] = [
        (&[], [0, 0, 0, 0]),
        (&[0], [1, 0, 0, 0]),
        (&[1], [0, 4, 1, 0]),
        (&[0, 0], [6, 0, 0, 0]),
        (&[0, 0, 1], [6, 2, 3, 0]),
    ];
    for (prefix, least) in bounds {
        for bound in [bound_prefix, lent::bound_prefix] {
            assert_eq!(bound(&bytes, prefix).least, least, "{prefix:?}");
        }
    }
}

#[test]
fn xor_constant_and_unary() {
    assert_points(&xor(), &[(&[0], &[0, 1])]);
    assert_points(&constant(), &[(&[1], &[0, 1])]);
    assert_points(&unary(), &[(&[1], &[0, 1])]);
}

#[test]
fn colours_under_low_ceilings_and_in_one_objective() {
    assert_points(&colours([7, 7]), &[(&[1, 4], &[0, 0, 1])]);
    assert_points(&colours_first(100), &[(&[1], &[0, 0, 1])]);
}

#[test]
fn days_and_gain_of_three_offers() {
    let points: [(&[u32], &[u8]); 3] = [(&[1, 5], &[2]), (&[3, 2], &[0]), (&[6, 0], &[1])];
    assert_points(&days_and_gain([100, 100]), &points);
}

#[test]
fn all_2_clauses_over_ten_variables() {
    let problem = all_clauses(10);
    assert_eq!((problem.tables.len(), problem.encode().len()), (190, 4134));
    assert_points(&problem, &[(&[45, 0], &[1; 10])]);
}

#[test]
fn the_row_that_tells_halves_apart() {
    let bytes = pair_with_constant([1, 9]).encode();
    let expected = vec![Listed::new(&[1, 2], &[0, 0])];
    for call in CUT_CALLS {
        for sides in [[0, 1], [1, 0]] {
            let cut = cut_by(call, &bytes, &sides);
            assert_eq!(cut, Ok((expected.clone(), [1, 2])), "sides {sides:?}");
        }
    }
}

#[test]
fn entries_use_all_four_bytes_and_the_last_variable_runs_fastest() {
    // Sizes 2, 3 and 4: the entry of (a, b, c) is at 12a + 4b + c. One number is within the ceiling.
    let mut costs = vec![0x0100_0000; 24];
    costs[12 + 2 * 4 + 1] = 0x00ff_ffff;
    let problem = Problem {
        ceilings: vec![0x00ff_ffff],
        domains: vec![2, 3, 4],
        tables: vec![Table::new(0, &[0, 1, 2], &costs)],
    };
    assert_points(&problem, &[(&[0x00ff_ffff], &[1, 2, 1])]);
    for bound in [bound_prefix, lent::bound_prefix] {
        let least = |prefix: &[u8]| bound(&problem.encode(), prefix).least[0];
        assert_eq!(least(&[1, 2]), 0x00ff_ffff);
        assert_eq!(least(&[1, 1]), 0x0100_0000);
    }
}
