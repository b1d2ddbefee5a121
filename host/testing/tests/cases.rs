//! The cases of the reference, section 12: its table, its printed example, and each limit from both
//! sides.

use frontier::lent;
use frontier::lent::{Answer, Buffers, CutCall, Least, PointRecord, SolveCall};
use frontier::limits::{LEAST_WORK, MAX_BYTES, MAX_POINTS};
use frontier::{Problem, Refusal, Table, FORBIDDEN};
use testing::brute::{bound_prefix, list_points, solve_cut, solve_problem};
use testing::examples::{bent, brimful, colours, lone, pair, stairs_of, three};
use testing::owned::{cut_by, frontier_by, frontier_of, list_text_by, Cut, Listed};

type BoundCall = fn(&[u8], &[u8]) -> Least;

type ListCall = fn(&[u8], &mut [PointRecord], &mut [u32]) -> Answer;

/// The bound calls of the brute force and of the static library; each case is asked of both.
const BOUND_CALLS: [BoundCall; 2] = [bound_prefix, lent::bound_prefix];

/// The flat calls of both; each case is asked of both.
const SOLVE_CALLS: [SolveCall; 2] = [solve_problem, lent::solve_problem];

/// The cut calls of both; each case is asked of both.
const CUT_CALLS: [CutCall; 2] = [solve_cut, lent::solve_cut];

/// The calls for point records of both; each case is asked of both.
const LIST_CALLS: [ListCall; 2] = [list_points, lent::list_points];

/// A refusal with this number and place.
fn refusal(number: u8, place: u32) -> Refusal {
    Refusal::new(number, place).expect("a refusal")
}

/// Asserts that the problem has exactly these points, so that every call accepts it.
fn assert_points(problem: &Problem, expected: &[(&[u32], &[u8])]) {
    let bytes = problem.encode();
    for call in SOLVE_CALLS {
        assert_eq!(frontier_by(call, &bytes), Ok(listed(expected)));
    }
    for call in LIST_CALLS {
        let mut points = [junk_point(); MAX_POINTS];
        let answer = call(&bytes, &mut points, &mut [7; LEAST_WORK]);
        assert_eq!(answer, Answer::accepted(expected.len()));
        for (point, (costs, choice)) in points.iter().zip(expected) {
            assert_eq!(point.costs[..costs.len()], **costs);
            assert_eq!(point.choice[..choice.len()], **choice);
        }
    }
    assert_eq!(lent::bound_prefix(&bytes, &[]).number, 0);
}

fn listed(points: &[(&[u32], &[u8])]) -> Vec<Listed> {
    points.iter().map(|(c, x)| Listed::new(c, x)).collect()
}

/// Asserts that every call refuses the bytes alike.
fn assert_refused(bytes: &[u8], number: u8, place: u32) {
    let expected = refusal(number, place);
    let (mut costs, mut choices, mut work) = ([7; 4], [7; 24], [7; LEAST_WORK]);
    let mut points = [junk_point(); 2];
    for solve in SOLVE_CALLS {
        let flat = solve(bytes, &mut costs, &mut choices, &mut work);
        assert_eq!(flat, expected.into());
    }
    for cut in CUT_CALLS {
        let halves = cut(bytes, &[], &mut costs, &mut choices, &mut work);
        assert_eq!(halves, expected.into());
    }
    for list in LIST_CALLS {
        assert_eq!(list(bytes, &mut points, &mut work), expected.into());
    }
    for bound in BOUND_CALLS {
        assert_eq!(bound(bytes, &[]), expected.into());
    }
    assert_eq!((costs, choices, work), ([7; 4], [7; 24], [7; LEAST_WORK]));
    assert_eq!(points, [junk_point(); 2]);
}

fn junk_point() -> PointRecord {
    PointRecord {
        costs: [7; 4],
        choice: [7; 24],
    }
}

/// Solves with buffers of these lengths and a good work buffer; both calls must answer alike.
fn solve_within(problem: &Problem, costs: usize, choices: usize) -> Answer {
    let answers = SOLVE_CALLS.map(|solve| {
        let (mut costs, mut choices) = (vec![0; costs], vec![0; choices]);
        let mut work = vec![0; LEAST_WORK];
        solve(&problem.encode(), &mut costs, &mut choices, &mut work)
    });
    assert_eq!(answers[0], answers[1]);
    answers[0]
}

/// What the cut calls list, with room for 64 points; both must answer alike.
fn cut_of(bytes: &[u8], sides: &[u8]) -> Result<Cut, Refusal> {
    let [brute, library] = CUT_CALLS.map(|call| cut_by(call, bytes, sides));
    assert_eq!(library, brute, "sides {sides:?}");
    library
}

/// One variable of one value and these charges of arity 0, under one ceiling.
fn charged(charges: &[u32], ceiling: u32) -> Problem {
    let charge = |&charge: &u32| Table::new(0, &[], &[charge]);
    Problem {
        tables: charges.iter().map(charge).collect(),
        ..lone(1, ceiling)
    }
}

/// A problem of two objectives with this table behind an arity-0 one.
fn with_table(domains: &[u8], table: Table) -> Problem {
    Problem {
        ceilings: vec![9, 9],
        domains: domains.to_vec(),
        tables: vec![Table::new(1, &[], &[3]), table],
    }
}

/// Where the second table of `with_table` starts.
fn second_table(problem: &Problem) -> u32 {
    14 + 3 * problem.variables() as u32 + 8
}

#[test]
fn colours_prints_as_the_reference_says() {
    let bytes = colours([100, 100]).encode();
    assert_eq!(bytes.len(), 155);
    let text = "points 2 objectives 2 variables 3\n1 4 : 0 0 1\n10 0 : 0 0 0\n";
    for call in SOLVE_CALLS {
        let list_text = |bytes: &[u8]| list_text_by(call, &mut Buffers::full(), bytes);
        assert_eq!(list_text(&bytes), text);
        assert_eq!(list_text(&[]), "refused 2 at 0\n");
    }
}

#[test]
fn colours_under_other_ceilings() {
    let one: (&[u32], &[u8]) = (&[1, 4], &[0, 0, 1]);
    let both = [one, (&[10, 0], &[0, 0, 0])];
    assert_points(&colours([9, 100]), &[one]);
    assert_points(&colours([10, 100]), &both);
    assert_points(&colours([11, 100]), &both);
    assert_points(&colours([2, 3]), &[]);
    assert_points(&colours([2, 4]), &[one]);
    assert_points(&colours([2, 5]), &[one]);
    assert_points(&colours([0, 100]), &[]);
}

#[test]
fn lone_variables() {
    assert_points(&lone(1, 1), &[(&[0], &[0])]);
    assert_points(&lone(1, 0), &[(&[0], &[0])]);
    assert_points(&lone(8, 1), &[(&[0], &[0])]);
    assert_points(&lone(8, FORBIDDEN), &[(&[0], &[0])]);
}

#[test]
fn room_0_suffices_for_no_point_and_for_no_more() {
    let none = charged(&[1], 0);
    assert_eq!(solve_within(&none, 0, 0), Answer::accepted(0));
    assert_eq!(solve_within(&lone(1, 0), 0, 0), refusal(15, 0).into());
    assert_eq!(solve_within(&lone(1, 1), 0, 1), refusal(15, 0).into());
    assert_eq!(solve_within(&lone(1, 1), 1, 0), refusal(15, 0).into());
    assert_eq!(solve_within(&lone(1, 1), 1, 1), Answer::accepted(1));
    for list in LIST_CALLS {
        let mut work = vec![5; LEAST_WORK];
        let answer = list(&none.encode(), &mut [], &mut work);
        assert_eq!(answer, Answer::accepted(0));
        let answer = list(&lone(1, 0).encode(), &mut [], &mut work);
        assert_eq!(answer, refusal(15, 0).into());
    }
}

#[test]
fn a_sum_of_4_294_967_295_is_allowed_and_an_entry_of_it_is_not() {
    const F: u32 = FORBIDDEN;
    let point: (&[u32], &[u8]) = (&[F], &[0]);
    let cases: [(&[u32], u32, bool); 9] = [
        (&[F], F, false),
        (&[F, 0], F, false),
        (&[F - 1, 1], F, true),
        (&[0x8000_0000, 0x7fff_ffff], F, true),
        (&[F - 1, 1], F - 1, false),
        (&[F - 1, 2], F, false),
        (&[F - 1, F - 1], F, false),
        (&[F], F - 1, false),
        (&[F], 0, false),
    ];
    for (charges, ceiling, listed) in cases {
        assert_points(&charged(charges, ceiling), &[point][..usize::from(listed)]);
    }
    assert_points(&charged(&[F - 1], F - 1), &[(&[F - 1], &[0])]);
}

/// Three with one forbidden entry more, over any of its variables or none, of any objective. What else it charges
/// is far below the ceilings.
#[test]
fn a_forbidden_entry_leaves_its_combination_out_under_every_ceiling() {
    const F: u32 = FORBIDDEN;
    let points: [(&[u32], &[u8]); 3] = [(&[0, 2], &[0]), (&[1, 1], &[1]), (&[2, 0], &[2])];
    for ceiling in [2, 3, F - 1, F] {
        for objective in [0, 1] {
            let mut problem = three([ceiling; 2]);
            problem.tables.push(Table::new(objective, &[0], &[0, F, 0]));
            assert_points(&problem, &[points[0], points[2]]);
            problem.tables.push(Table::new(objective, &[], &[F]));
            assert_points(&problem, &[]);
        }
    }
    // The value that beats the others is left out, and one that it beats is listed.
    let mut problem = lone(2, F);
    problem.tables = vec![Table::new(0, &[0], &[F, F - 1])];
    assert_points(&problem, &[(&[F - 1], &[1])]);
}

/// Pair with forbidden entries in the halves, and sums of exactly 4,294,967,295 over both.
#[test]
fn halves_leave_forbidden_entries_out() {
    const F: u32 = FORBIDDEN;
    let points: [(&[u32], &[u8]); 3] = [(&[0, 2], &[0, 0]), (&[1, 1], &[0, 1]), (&[2, 0], &[1, 1])];
    for ceiling in [2, F - 1, F] {
        for objective in [0, 1] {
            let mut problem = pair([ceiling; 2]);
            problem.tables.push(Table::new(objective, &[1], &[F, 0]));
            let cut = cut_of(&problem.encode(), &[0, 1]);
            assert_eq!(cut, Ok((listed(&points[1..]), [2, 1])));
            let exchanged = cut_of(&problem.encode(), &[1, 0]);
            assert_eq!(exchanged, Ok((listed(&points[1..]), [1, 2])));
            problem.tables.push(Table::new(objective, &[], &[F]));
            let nothing = cut_of(&problem.encode(), &[1, 1]);
            assert_eq!(nothing, Ok((vec![], [0, 2])));
        }
    }
    let mut sums = pair([F, F]);
    sums.tables = vec![
        Table::new(0, &[0], &[F - 1, F]),
        Table::new(0, &[1], &[2, 1]),
    ];
    let sum: (&[u32], &[u8]) = (&[F, 0], &[0, 1]);
    assert_points(&sums, &[sum]);
    assert_eq!(
        cut_of(&sums.encode(), &[0, 1]),
        Ok((listed(&[sum]), [1, 1]))
    );
}

#[test]
fn three_and_its_room() {
    let points: [(&[u32], &[u8]); 3] = [(&[0, 2], &[0]), (&[1, 1], &[1]), (&[2, 0], &[2])];
    assert_points(&three([3, 3]), &points);
    assert_eq!(solve_within(&three([3, 3]), 5, 9), refusal(15, 0).into());
    assert_eq!(solve_within(&three([3, 3]), 9, 2), refusal(15, 0).into());
    assert_eq!(solve_within(&three([3, 3]), 6, 3), Answer::accepted(3));
    assert_points(&three([2, 3]), &points);
    assert_eq!(solve_within(&three([2, 3]), 4, 2), refusal(15, 0).into());
    assert_points(&three([1, 3]), &points[..2]);
    assert_eq!(solve_within(&three([1, 3]), 4, 2), Answer::accepted(2));
}

#[test]
fn room_is_at_most_64() {
    assert_eq!(
        solve_within(&stairs_of(64), 9999, 9999),
        Answer::accepted(64)
    );
    assert_eq!(
        solve_within(&stairs_of(65), 9999, 9999),
        refusal(15, 0).into()
    );
    for list in LIST_CALLS {
        let mut points = [junk_point(); 100];
        let mut work = vec![5; LEAST_WORK];
        let bytes = stairs_of(65).encode();
        let full = list(&bytes, &mut points, &mut work);
        assert_eq!(full, refusal(15, 0).into());
        assert!(points.iter().all(|point| *point == junk_point()));
        assert!(work.iter().all(|&number| number == 0));
    }
}

#[test]
fn pair_by_halves() {
    let points: [(&[u32], &[u8]); 3] = [(&[0, 2], &[0, 0]), (&[1, 1], &[0, 1]), (&[2, 0], &[1, 1])];
    let wide = cut_of(&pair([9, 9]).encode(), &[0, 1]);
    assert_eq!(wide, Ok((listed(&points), [2, 2])));
    // Now the first pair that gives 1 1 has the later choice.
    let exchanged = cut_of(&pair([9, 9]).encode(), &[1, 0]);
    assert_eq!(exchanged, Ok((listed(&points), [2, 2])));
    let equal = cut_of(&pair([2, 2]).encode(), &[0, 1]);
    assert_eq!(equal, Ok((listed(&points), [2, 2])));
    let narrow = cut_of(&pair([1, 1]).encode(), &[0, 1]);
    assert_eq!(narrow, Ok((listed(&points[1..2]), [2, 2])));
}

#[test]
fn a_beaten_sum_is_not_listed() {
    let points: [(&[u32], &[u8]); 5] = [
        (&[0, 6], &[0, 0]),
        (&[1, 4], &[0, 1]),
        (&[2, 2], &[1, 1]),
        (&[4, 1], &[1, 2]),
        (&[6, 0], &[2, 2]),
    ];
    assert_points(&bent([9, 9]), &points);
    let cut = cut_of(&bent([9, 9]).encode(), &[0, 1]);
    assert_eq!(cut, Ok((listed(&points), [3, 3])));
}

#[test]
fn a_half_without_variables() {
    let bytes = pair([9, 9]).encode();
    let whole = frontier_of(&bytes).unwrap();
    assert_eq!(cut_of(&bytes, &[0, 0]), Ok((whole.clone(), [3, 1])));
    assert_eq!(cut_of(&bytes, &[1, 1]), Ok((whole, [1, 3])));
    // The empty choice costs 0, which a ceiling of 0 allows.
    let last = listed(&[(&[2, 0], &[1, 1])]);
    let tight = pair([9, 0]).encode();
    assert_eq!(cut_of(&tight, &[0, 0]), Ok((last.clone(), [1, 1])));
    assert_eq!(cut_of(&tight, &[1, 1]), Ok((last, [1, 1])));
    let none = pair([0, 0]).encode();
    assert_eq!(cut_of(&none, &[0, 0]), Ok((vec![], [0, 1])));
    assert_eq!(cut_of(&none, &[1, 1]), Ok((vec![], [1, 0])));
}

#[test]
fn a_half_above_64_points_is_refused() {
    // A charge of 60 on the fourth variable leaves few sums within the ceiling.
    let mut problem = stairs_of(64);
    problem.tables.push(Table::new(0, &[3], &[60]));
    let (list, sizes) = cut_of(&problem.encode(), &[0, 0, 0, 1]).unwrap();
    assert_eq!((list.len(), sizes), (4, [64, 1]));
    problem.ceilings[0] = 64;
    assert_eq!(frontier_of(&problem.encode()).unwrap().len(), 5);
    for sides in [[0, 0, 0, 1], [1, 1, 1, 0]] {
        assert_eq!(cut_of(&problem.encode(), &sides), Err(refusal(15, 0)));
    }
    // As an arity-0 record the charge stays with half 0, so the exchange decides.
    problem.tables.last_mut().unwrap().scope.clear();
    let (list, sizes) = cut_of(&problem.encode(), &[0, 0, 0, 1]).unwrap();
    assert_eq!((list.len(), sizes), (5, [5, 1]));
    let exchanged = cut_of(&problem.encode(), &[1, 1, 1, 0]);
    assert_eq!(exchanged, Err(refusal(15, 0)));
}

#[test]
fn side_lists_and_linked_records() {
    let bytes = colours([100, 100]).encode();
    assert_eq!(cut_of(&bytes, &[0, 0, 1]), Err(refusal(14, 45)));
    assert_eq!(cut_of(&bytes, &[1, 1, 0]), Err(refusal(14, 45)));
    assert_eq!(cut_of(&bytes, &[0, 1, 1]), Err(refusal(14, 23)));
    let bad: [&[u8]; 6] = [
        &[],
        &[0, 0],
        &[0, 0, 1, 1],
        &[0, 0, 2],
        &[2, 0, 0],
        &[0, 255, 0],
    ];
    for sides in bad {
        assert_eq!(cut_of(&bytes, sides), Err(refusal(13, 0)));
    }
}

#[test]
fn the_order_of_12_to_15() {
    for call in CUT_CALLS {
        assert_order_of_12_to_15(call);
    }
}

/// Asserts which of several faults a cut call tells, and that it leaves its buffers right.
fn assert_order_of_12_to_15(call: CutCall) {
    let bytes = colours([100, 100]).encode();
    let cut = |sides: &[u8], room: usize, work: usize| {
        let (mut costs, mut choices) = (vec![6; 2 * room], vec![6; 3 * room]);
        let mut work = vec![6; work];
        let halves = call(&bytes, sides, &mut costs, &mut choices, &mut work);
        assert_eq!(
            (halves.answer.count, halves.first, halves.second),
            (0, 0, 0)
        );
        let fill = if halves.answer.number == 15 { 0 } else { 6 };
        assert!(work.iter().all(|&number| number == fill));
        assert!(costs.iter().all(|&cost| cost == 6) && choices.iter().all(|&x| x == 6));
        (halves.answer.number, halves.answer.place)
    };
    assert_eq!(cut(&[0, 0], 0, LEAST_WORK - 1), (12, 0));
    assert_eq!(cut(&[0, 0], 0, LEAST_WORK), (13, 0));
    assert_eq!(cut(&[0, 0, 1], 0, LEAST_WORK), (14, 45));
    assert_eq!(cut(&[0, 0, 0], 1, LEAST_WORK), (15, 0));
}

#[test]
fn work_buffers_around_8192() {
    let bytes = three([3, 3]).encode();
    for length in [0, 1, LEAST_WORK - 1, LEAST_WORK, LEAST_WORK + 500] {
        let (mut costs, mut choices, mut work) = ([6; 6], [6; 3], vec![6; length]);
        let enough = length >= LEAST_WORK;
        let expected = if enough {
            Answer::accepted(3)
        } else {
            refusal(12, 0).into()
        };
        for solve in SOLVE_CALLS {
            let answer = solve(&bytes, &mut costs, &mut choices, &mut work);
            assert_eq!(answer, expected);
            assert!(work.iter().all(|&x| x == if enough { 0 } else { 6 }));
            work.fill(6);
        }
        for list in LIST_CALLS {
            let mut points = [junk_point(); 3];
            assert_eq!(list(&bytes, &mut points, &mut work), expected);
            assert!(work.iter().all(|&x| x == if enough { 0 } else { 6 }));
            assert_eq!(points[0] == junk_point(), !enough);
            work.fill(6);
        }
    }
}

#[test]
fn header_limits() {
    let with = |variables: usize, objectives: usize| Problem {
        ceilings: vec![1; objectives],
        domains: vec![1; variables],
        tables: Vec::new(),
    };
    for n in [1, 23, 24] {
        assert_points(&with(n, 1), &[(&[0], &vec![0; n])]);
    }
    for p in [1, 3, 4] {
        assert_points(&with(1, p), &[(&vec![0; p], &[0])]);
    }
    for n in [0, 25, 255] {
        assert_refused(&with(n, 1).encode(), 4, 0);
        assert_refused(&with(n, 5).encode(), 4, 0);
    }
    for p in [0, 5, 255] {
        assert_refused(&with(1, p).encode(), 5, 0);
    }
}

#[test]
fn limit_of_tables() {
    let with = |objectives: usize, tables: usize| Problem {
        ceilings: vec![1000; objectives],
        domains: vec![1],
        tables: vec![Table::new(0, &[], &[1]); tables],
    };
    for r in [0, 255, 256] {
        assert_points(&with(1, r), &[(&[r as u32], &[0])]);
    }
    for r in [257, 511, 512, 6000] {
        assert_refused(&with(1, r).encode(), 6, 0);
        assert_refused(&with(5, r).encode(), 5, 0);
    }
}

#[test]
fn domain_limits() {
    for d in [1, 7, 8] {
        assert_points(&lone(d, 1), &[(&[0], &[0])]);
    }
    for d in [0, 9, 255] {
        let mut problem = colours([100, 100]);
        problem.domains[1] = d;
        assert_refused(&problem.encode(), 7, 17);
    }
}

#[test]
fn limits_of_owner_and_arity() {
    let valid = with_table(&[2], Table::new(1, &[0], &[5, 4]));
    assert_points(&valid, &[(&[0, 7], &[1])]);
    for objective in [2, 3, 255] {
        let problem = with_table(&[2], Table::new(objective, &[0], &[5, 4]));
        assert_refused(&problem.encode(), 8, second_table(&problem));
        let both = with_table(&[1; 4], Table::new(objective, &[0, 1, 2, 3], &[5]));
        assert_refused(&both.encode(), 8, second_table(&both));
    }
    let ternary = with_table(&[1, 1, 1, 1], Table::new(0, &[0, 1, 3], &[5]));
    assert_points(&ternary, &[(&[5, 3], &[0, 0, 0, 0])]);
    for arity in [4, 5, 255] {
        let scope: Vec<u8> = (0..arity).collect();
        let problem = with_table(&[1; 4], Table::new(0, &scope, &[5]));
        assert_refused(&problem.encode(), 9, second_table(&problem));
    }
}

#[test]
fn limits_of_scope() {
    let good: [&[u8]; 9] = [
        &[2],
        &[0, 2],
        &[1, 2],
        &[1, 0],
        &[0, 1, 2],
        &[0, 2, 1],
        &[1, 0, 2],
        &[2, 0, 1],
        &[2, 1, 0],
    ];
    for scope in good {
        let problem = with_table(&[1; 3], Table::new(0, scope, &[5]));
        assert_points(&problem, &[(&[5, 3], &[0, 0, 0])]);
    }
    let bad: [&[u8]; 11] = [
        &[3],
        &[255],
        &[0, 3],
        &[3, 0],
        &[0, 0],
        &[0, 0, 1],
        &[0, 1, 0],
        &[0, 1, 1],
        &[1, 0, 0],
        &[0, 0, 3],
        &[3, 0, 0],
    ];
    for scope in bad {
        let problem = with_table(&[1; 3], Table::new(0, scope, &[]));
        // The scope is looked at before the missing table.
        assert_refused(&problem.encode(), 10, second_table(&problem));
    }
}

#[test]
fn several_faults_in_one_record() {
    // Too few single fields come before their checks, the checks before missing ceilings.
    assert_refused(b"HD", 2, 0);
    assert_refused(&[b'H', b'D', 25, 5, 1], 2, 0);
    assert_refused(&[b'H', b'D', 25, 5, 1, 2], 4, 0);
    assert_refused(&[b'H', b'D', 24, 5, 1, 2], 5, 0);
    assert_refused(&[b'H', b'D', 24, 4, 1, 1], 6, 0);
    assert_refused(&[b'H', b'D', 24, 4, 0, 1], 2, 0);
    assert_refused(b"H", 2, 0);
    assert_refused(b"X", 2, 0);
    assert_refused(b"XX", 3, 0);
    assert_refused(b"DO", 3, 0);
    // A missing scope byte comes before a bad one that is there.
    let short = with_table(&[2, 2], Table::new(0, &[7, 7], &[])).encode();
    let place = 14 + 6 + 8;
    assert_refused(&short[..short.len() - 1], 2, place);
    assert_refused(&short, 10, place);
    assert_refused(&short[..short.len() - 3], 2, place);
}

#[test]
fn bytes_that_end_early_or_late() {
    let bytes = colours([100, 100]).encode();
    assert_refused(&[], 2, 0);
    // The last record starts at byte 133; a record that is due and quite missing has the
    // place where it would start.
    for end in 133..155 {
        assert_refused(&bytes[..end], 2, 133);
    }
    assert_refused(&bytes[..132], 2, 111);
    for (end, place) in [(14, 14), (16, 14), (17, 17), (20, 20), (22, 20), (23, 23)] {
        assert_refused(&bytes[..end], 2, place);
    }
    let mut more = bytes.clone();
    more.push(0);
    assert_refused(&more, 11, 155);
    more.extend(b"CF");
    assert_refused(&more, 11, 155);
}

#[test]
fn stray_marks() {
    let bytes = colours([100, 100]).encode();
    for place in [0, 14, 17, 20, 23, 45, 133] {
        for byte in [place, place + 1] {
            let mut stray = bytes.clone();
            stray[byte] ^= 0x20;
            assert_refused(&stray, 3, place as u32);
        }
    }
}

#[test]
fn sixty_thousand_bytes() {
    let mut bytes = brimful().encode();
    assert_eq!(bytes.len(), MAX_BYTES);
    assert_points(&brimful(), &[(&[8, 7], &[7, 7, 7])]);
    bytes.push(0);
    assert_refused(&bytes, 1, 0);
    assert_refused(&vec![0; MAX_BYTES], 3, 0);
    assert_refused(&vec![0; MAX_BYTES + 1], 1, 0);
    let mut padded = colours([100, 100]).encode();
    padded.resize(MAX_BYTES, 0);
    assert_refused(&padded, 11, 155);
}

/// Asserts what both bound calls answer for a prefix.
fn assert_least(problem: &Problem, prefix: &[u8], least: [u64; 4]) {
    for bound in BOUND_CALLS {
        let expected = Least {
            number: 0,
            place: 0,
            least,
        };
        assert_eq!(bound(&problem.encode(), prefix), expected, "{prefix:?}");
    }
}

/// Asserts that both bound calls refuse a prefix.
fn assert_prefix_refused(problem: &Problem, prefix: &[u8]) {
    for bound in BOUND_CALLS {
        let answer = bound(&problem.encode(), prefix);
        assert_eq!(answer, refusal(16, 0).into(), "{prefix:?}");
    }
}

#[test]
fn prefixes() {
    assert_least(&three([3, 3]), &[], [0, 0, 0, 0]);
    assert_least(&three([3, 3]), &[2], [2, 0, 0, 0]);
    let bad: [&[u8]; 4] = [&[3], &[255], &[0, 0], &[3, 0]];
    for prefix in bad {
        assert_prefix_refused(&three([3, 3]), prefix);
    }
    let mut unequal = pair([9, 9]);
    unequal.domains = vec![2, 1];
    unequal.tables.truncate(2);
    assert_least(&unequal, &[1, 0], [1, 0, 0, 0]);
    assert_prefix_refused(&unequal, &[0, 1]);
    // A fault of the bytes comes first.
    let bytes = unequal.encode();
    for bound in BOUND_CALLS {
        let answer = bound(&bytes[..bytes.len() - 1], &[9; 30]);
        assert_eq!(answer, refusal(2, 33).into());
    }
}

#[test]
fn a_bound_has_more_than_32_bits() {
    let mut problem = lone(1, 5);
    problem.tables = vec![Table::new(0, &[0], &[u32::MAX]); 256];
    let sum = 256 * u64::from(u32::MAX);
    assert_least(&problem, &[], [sum, 0, 0, 0]);
    assert!(sum < 1 << 40);
    assert_points(&problem, &[]);
}
