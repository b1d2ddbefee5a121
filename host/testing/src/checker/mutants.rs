//! Wrong answers and faulty calls, made from right ones; the checkers must tell each of them.

use crate::brute::{bound_prefix, list_points, solve_cut, solve_problem};
use crate::owned::Listed;
use crate::reading::read_problem;
use frontier::lent::{Answer, Buffers, Halves, Least, PointRecord};
use frontier::limits::{MAX_POINTS, MAX_VARIABLES};
use frontier::Refusal;

use super::law::{Bounder, Cutter, Lister, Solver};
use super::Costed;

/// How an untidy call leaves its buffers.
type Leave<'a> = &'a dyn Fn(&mut Buffers);

/// The half sizes that a call gives in place of the right ones.
type Sizes = fn(Halves) -> [u32; 2];

/// The list with a later consistent choice of the same costs for one point, if there is one.
fn later_tie(consistent: &[Costed], list: &[Listed]) -> Option<Vec<Listed>> {
    for (i, point) in list.iter().enumerate() {
        let costs: Vec<u64> = point.costs.iter().map(|&c| u64::from(c)).collect();
        let later = |pair: &&Costed| pair.1 == costs && pair.0 > point.choice;
        if let Some((choice, _)) = consistent.iter().find(later) {
            let mut mutant = list.to_vec();
            mutant[i].choice = choice.clone();
            return Some(mutant);
        }
    }
    None
}

/// The list with a beaten point put where it rises, if there is one.
fn beaten_point(consistent: &[Costed], list: &[Listed]) -> Option<Vec<Listed>> {
    let narrow = |costs: &[u64]| costs.iter().map(|&c| c as u32).collect::<Vec<u32>>();
    let unlisted = |pair: &&Costed| list.iter().all(|point| point.costs != narrow(&pair.1));
    let (choice, costs) = consistent.iter().find(unlisted)?;
    let mut mutant = list.to_vec();
    mutant.push(Listed::new(&narrow(costs), choice));
    mutant.sort_by(|a, b| a.costs.cmp(&b.costs));
    Some(mutant)
}

/// The names of the wrong lists that `wrong_lists` makes.
pub const WRONG_LISTS: [&str; 7] = [
    "first dropped",
    "last dropped",
    "point twice",
    "cost changed",
    "points swapped",
    "later tie",
    "beaten point",
];

/// Wrong lists made from a right one, each with its name: those that the list allows.
pub fn wrong_lists(consistent: &[Costed], list: &[Listed]) -> Vec<(&'static str, Vec<Listed>)> {
    let mut wrong = Vec::new();
    let mut change = |name: &'static str, change: fn(&mut Vec<Listed>)| {
        let mut mutant = list.to_vec();
        change(&mut mutant);
        wrong.push((name, mutant));
    };
    if !list.is_empty() {
        change("first dropped", |list| drop(list.remove(0)));
        change("last dropped", |list| drop(list.pop()));
        change("point twice", |list| list.insert(0, list[0].clone()));
        change("cost changed", |list| list[0].costs[0] ^= 1);
    }
    if list.len() >= 2 {
        change("points swapped", |list| list.swap(0, 1));
    }
    wrong.extend(later_tie(consistent, list).map(|mutant| ("later tie", mutant)));
    wrong.extend(beaten_point(consistent, list).map(|mutant| ("beaten point", mutant)));
    wrong
}

/// The bytes with each scope sorted and its table as it was: the written order is ignored. Bytes that
/// are no problem stay as they are.
fn with_sorted_scopes(problem: &[u8]) -> Vec<u8> {
    let Ok(reading) = read_problem(problem) else {
        return problem.to_vec();
    };
    let mut sorted = reading.problem;
    for table in &mut sorted.tables {
        table.scope.sort_unstable();
    }
    sorted.encode()
}

/// Solves, and then does something wrong with the buffers or the answer.
fn after(
    tamper: impl Fn(&mut Buffers, &mut Answer),
) -> impl Fn(&[u8], &mut [u32], &mut [u8], &mut [u32]) -> Answer {
    move |problem, costs, choices, work| {
        let mut answer = solve_problem(problem, costs, choices, work);
        let mut lent = Buffers {
            costs: costs.to_vec(),
            choices: choices.to_vec(),
            work: work.to_vec(),
        };
        tamper(&mut lent, &mut answer);
        costs.copy_from_slice(&lent.costs);
        choices.copy_from_slice(&lent.choices);
        work.copy_from_slice(&lent.work);
        answer
    }
}

/// Does something to the last element of a slice, if there is one.
fn spoil<T: Copy>(slice: &mut [T], spoiled: impl Fn(T) -> T) {
    if let Some(last) = slice.last_mut() {
        *last = spoiled(*last);
    }
}

/// Hands each flat call with a wrong answer to the test, by name.
pub fn each_wrong_solver(test: impl Fn(&str, Solver)) {
    test("never accepts", &|_, _, _, work| {
        work.fill(0);
        Refusal::Full.into()
    });
    let one_point = |_: &mut Buffers, answer: &mut Answer| answer.count = answer.count.min(1);
    test("stops after one point", &after(one_point));
    test("scopes sorted", &|problem, costs, choices, work| {
        solve_problem(&with_sorted_scopes(problem), costs, choices, work)
    });
    test("choices not asked", &|problem, costs, choices, work| {
        let mut own = vec![0; MAX_POINTS * MAX_VARIABLES];
        let answer = solve_problem(problem, costs, &mut own, work);
        let slots = choices.iter_mut().zip(own);
        slots.for_each(|(slot, value)| *slot = value);
        answer
    });
    test("old memory", &|problem, costs, choices, work| {
        let old = work.first().is_some_and(|number| number % 4 == 3);
        let mut answer = solve_problem(problem, costs, choices, work);
        answer.count = answer.count.saturating_sub(u32::from(old));
        answer
    });
}

/// Hands each flat call that leaves a buffer wrong to the test, by name.
pub fn each_untidy_solver(test: impl Fn(&str, Solver)) {
    let work = |lent: &mut Buffers| spoil(&mut lent.work, |_| 1);
    let costs = |lent: &mut Buffers| spoil(&mut lent.costs, |cost| cost ^ 1);
    let choices = |lent: &mut Buffers| spoil(&mut lent.choices, |value| value ^ 1);
    let untidy: [(&str, u8, Leave); 7] = [
        ("work left", 0, &work),
        ("work left by 15", 15, &work),
        ("work cleared by 12", 12, &|lent| lent.work.fill(0)),
        ("written past the costs", 0, &costs),
        ("written past the choices", 0, &choices),
        ("costs written by 15", 15, &costs),
        ("choices written by 12", 12, &choices),
    ];
    for (name, number, leave) in untidy {
        let tamper = |lent: &mut Buffers, answer: &mut Answer| {
            if answer.number == number {
                leave(lent);
            }
        };
        test(name, &after(tamper));
    }
}

/// Hands each cut call with wrong sizes to the test, by name.
pub fn each_missized_cutter(test: impl Fn(&str, Cutter)) {
    let missized: [(&str, Sizes); 3] = [
        ("sizes exchanged", |cut| [cut.second, cut.first]),
        ("sizes invented", |cut| {
            [cut.answer.count, u32::from(cut.answer.number == 0)]
        }),
        ("sizes after a refusal", |cut| {
            [cut.first + u32::from(cut.answer.number != 0), cut.second]
        }),
    ];
    for (name, sizes) in missized {
        test(name, &|problem, sides, costs, choices, work| {
            let cut = solve_cut(problem, sides, costs, choices, work);
            let [first, second] = sizes(cut);
            Halves {
                first,
                second,
                ..cut
            }
        });
    }
}

/// Hands each cut call that misreads its sides to the test, by name.
pub fn each_missided_cutter(test: impl Fn(&str, Cutter)) {
    test(
        "above 1 taken for 1",
        &|problem, sides, costs, choices, work| {
            let sides: Vec<u8> = sides.iter().map(|&side| side.min(1)).collect();
            solve_cut(problem, &sides, costs, choices, work)
        },
    );
    test("arity 0 in half 1", &|problem,
                                sides,
                                costs,
                                choices,
                                work| {
        let exchanged: Vec<u8> = sides.iter().map(|&side| side ^ 1).collect();
        let cut = solve_cut(problem, &exchanged, costs, choices, work);
        Halves {
            first: cut.second,
            second: cut.first,
            ..cut
        }
    });
    test("not cut at all", &|problem, sides, costs, choices, work| {
        let cut = solve_cut(problem, sides, costs, choices, work);
        let answer = solve_problem(problem, costs, choices, work);
        Halves { answer, ..cut }
    });
}

/// Hands each faulty call for point records to the test, by name.
pub fn each_faulty_lister(test: impl Fn(&str, Lister)) {
    let spoiled = |tamper: fn(&mut PointRecord)| {
        move |problem: &[u8], points: &mut [PointRecord], work: &mut [u32]| {
            let answer = list_points(problem, points, work);
            points[..answer.count as usize].iter_mut().for_each(tamper);
            answer
        }
    };
    test("unused cost", &spoiled(|point| point.costs[3] |= 1));
    test("unused choice", &spoiled(|point| point.choice[23] |= 1));
    test("past the count", &|problem, points, work| {
        let answer = list_points(problem, points, work);
        points[answer.count as usize..]
            .iter_mut()
            .for_each(|point| point.costs[0] ^= 1);
        answer
    });
    test("room not asked", &|problem, points, work| {
        let mut own = vec![points.first().copied(); MAX_POINTS]
            .into_iter()
            .flatten()
            .collect::<Vec<PointRecord>>();
        list_points(problem, &mut own, work)
    });
}

/// Hands each faulty bound call to the test, by name.
pub fn each_faulty_bounder(test: impl Fn(&str, Bounder)) {
    let zero = Least {
        number: 0,
        place: 0,
        least: [0; 4],
    };
    test("all zero", &|_, _| zero);
    test("prefix ignored", &|problem, _| bound_prefix(problem, &[]));
    test("scopes sorted", &|problem, prefix| {
        bound_prefix(&with_sorted_scopes(problem), prefix)
    });
    test("one value late", &|problem, prefix| {
        bound_prefix(problem, &prefix[..prefix.len().saturating_sub(1)])
    });
    test("one too high", &|problem, prefix| {
        let mut bound = bound_prefix(problem, prefix);
        bound.least[0] += 1;
        bound
    });
    test("unused objective", &|problem, prefix| {
        let mut bound = bound_prefix(problem, prefix);
        bound.least[3] |= 1;
        bound
    });
}

/// Hands each bound call that tells a refusal wrongly to the test, by name. Valid problems with
/// good prefixes do not tell these apart.
pub fn each_misread_bounder(test: impl Fn(&str, Bounder)) {
    test("place dropped", &|problem, prefix| Least {
        place: 0,
        ..bound_prefix(problem, prefix)
    });
    test(
        "prefix asked first",
        &|problem, prefix| match prefix.len() > MAX_VARIABLES {
            true => Refusal::Prefix.into(),
            false => bound_prefix(problem, prefix),
        },
    );
    test("least after a refusal", &|problem, prefix| {
        let mut bound = bound_prefix(problem, prefix);
        bound.least[0] |= u64::from(bound.number != 0);
        bound
    });
    test("last byte not read", &|problem, prefix| {
        bound_prefix(&problem[..problem.len().saturating_sub(1)], prefix)
    });
    test("value at its domain's size", &|problem, prefix| {
        let mut bound = bound_prefix(problem, prefix);
        bound.number %= 16;
        bound
    });
}
