//! What is asked of a call in a batch: what it tells of each problem, with its time and digest; that it changes
//! nothing else; and the same again from other junk.

use crate::batch_csv::Told;
use crate::clock::thread_time;
use crate::digest::list_digest;
use crate::junk::{junk_areas, lengths_of, Rng};
use frontier::lent::{Answer, BatchBuffers, CachedCall, SolveCall};
use frontier::limits::{CHOICES_LEN, COSTS_LEN, RESULT_LEN};
use frontier::refusal::{word_of, FULL};

/// What was wrong with a call.
#[derive(Clone, Debug, PartialEq, Eq)]
pub struct Fault {
    /// With which of its problems, counted from 0; none if it is not about one of them.
    pub problem: Option<usize>,
    /// The fault in words.
    pub complaint: String,
}

impl Fault {
    fn of(problem: usize, complaint: impl Into<String>) -> Fault {
        Fault {
            problem: Some(problem),
            complaint: complaint.into(),
        }
    }

    fn of_all(complaint: impl Into<String>) -> Fault {
        Fault {
            problem: None,
            complaint: complaint.into(),
        }
    }
}

/// What a call has told of its problems, and what was wrong with it, if anything.
#[derive(Clone, Debug, PartialEq, Eq)]
pub struct Called {
    pub told: Vec<Told>,
    pub faults: Vec<Fault>,
}

/// Makes a batch call of one problem of a single call: that the two do the same is what the batch call promises.
pub fn lend_single(call: SolveCall, lent: &mut BatchBuffers, problem: &[u8]) -> Answer {
    let answer = call(problem, &mut lent.costs, &mut lent.choices, &mut lent.work);
    put_result(lent, answer)
}

/// Puts the answer of a single call where a batch call has that of its first problem.
fn put_result(lent: &mut BatchBuffers, answer: Answer) -> Answer {
    let numbers = [answer.number.into(), answer.place, answer.count];
    lent.results[..RESULT_LEN].copy_from_slice(&numbers);
    Answer::accepted(1)
}

/// A call once, and whether the buffers are as they must be.
pub fn call_once(
    call: impl FnOnce(&mut BatchBuffers) -> Answer,
    lent: &mut BatchBuffers,
    problems: &[&[u8]],
) -> Called {
    let before = lent.clone();
    let start = thread_time();
    let whole = call(lent);
    let time = thread_time().saturating_sub(start).as_micros() as u64;
    let is_accepted = whole == Answer::accepted(problems.len());
    let told = (0..).zip(problems).map(|(k, problem)| match is_accepted {
        true => told_of(lent.answer(k), listed(lent, k, problem), time),
        false => told_of(whole, (&[], &[]), time),
    });
    let told = told.collect();
    let faults = match is_accepted {
        true => check_left(&before, lent, problems),
        false => vec![Fault::of_all(not_accepted(whole, problems.len()))],
    };
    Called { told, faults }
}

/// What is wrong with the answer to a batch as a whole, whose frames and buffers are as they must be.
fn not_accepted(whole: Answer, problems: usize) -> String {
    match whole.number {
        0 => format!(
            "the call counts {} problems instead of {problems}",
            whole.count
        ),
        number => format!(
            "the call refuses all with number {number} ({})",
            word_of(number)
        ),
    }
}

/// The costs and the choices that a call has listed for its problem `k`; nothing after a refusal.
fn listed<'a>(lent: &'a BatchBuffers, k: usize, problem: &[u8]) -> (&'a [u32], &'a [u8]) {
    let list = lent.listed(k, problem);
    list.map_or((&[], &[]), |list| (list.costs(), list.choices()))
}

/// What a call that took so long has told of a problem.
fn told_of(answer: Answer, (costs, choices): (&[u32], &[u8]), microseconds: u64) -> Told {
    Told {
        number: answer.number,
        place: answer.place,
        count: answer.count,
        microseconds,
        digest: list_digest(costs, choices),
        hit: None,
    }
}

/// What a call has changed that it must leave, and whether it has cleared the work buffer as it must.
fn check_left(before: &BatchBuffers, after: &BatchBuffers, problems: &[&[u8]]) -> Vec<Fault> {
    let mut faults = Vec::new();
    for (k, problem) in problems.iter().enumerate() {
        let (costs, choices) = listed(after, k, problem);
        let [costs, choices] = [
            COSTS_LEN * k + costs.len()..COSTS_LEN * (k + 1),
            CHOICES_LEN * k + choices.len()..CHOICES_LEN * (k + 1),
        ];
        if before.costs[costs.clone()] != after.costs[costs] {
            let complaint = "the call has changed costs behind the last point";
            faults.push(Fault::of(k, complaint));
        }
        if before.choices[choices.clone()] != after.choices[choices] {
            let complaint = "the call has changed choices behind the last point";
            faults.push(Fault::of(k, complaint));
        }
    }
    if behind(before, problems.len()) != behind(after, problems.len()) {
        let complaint = "the call has changed what is behind the last problem's areas";
        faults.push(Fault::of_all(complaint));
    }
    let cleared = (0..problems.len()).any(|k| [0, FULL].contains(&after.answer(k).number));
    let work_is_due = match cleared {
        true => after.work.iter().all(|&number| number == 0),
        false => before.work == after.work,
    };
    if !work_is_due {
        let complaint = "the call has left other work memory than it must";
        faults.push(Fault::of_all(complaint));
    }
    faults
}

/// What is behind the areas of so many problems.
fn behind(lent: &BatchBuffers, problems: usize) -> (&[u32], &[u8], &[u32]) {
    (
        &lent.costs[COSTS_LEN * problems..],
        &lent.choices[CHOICES_LEN * problems..],
        &lent.results[RESULT_LEN * problems..],
    )
}

/// A call, and again from other junk in all buffers: the same answers, and the same points byte by byte. The second
/// call is made only if nothing was wrong with the first.
pub fn call_twice(
    mut call: impl FnMut(&mut BatchBuffers) -> Answer,
    lent: &mut BatchBuffers,
    rng: &mut Rng,
    problems: &[&[u8]],
) -> Called {
    let first = call_once(&mut call, lent, problems);
    if !first.faults.is_empty() {
        return first;
    }
    let mut other = junk_areas(rng, lengths_of(lent));
    let again = call_once(call, &mut other, problems);
    let faults = match again.faults.is_empty() {
        true => compare_lists(lent, &other, problems),
        false => again.faults,
    };
    let told = first.told;
    Called { told, faults }
}

/// How two accepted calls differ in what they have told and listed.
fn compare_lists(first: &BatchBuffers, second: &BatchBuffers, problems: &[&[u8]]) -> Vec<Fault> {
    let compare = |(k, problem): (usize, &&[u8])| {
        let [one, other] = [first.answer(k), second.answer(k)];
        if one != other {
            let complaint =
                format!("from other junk the call answers {other:?} instead of {one:?}");
            return Some(Fault::of(k, complaint));
        }
        let is_same = listed(first, k, problem) == listed(second, k, problem);
        let complaint = "from other junk the call lists other points";
        (!is_same).then(|| Fault::of(k, complaint))
    };
    problems.iter().enumerate().filter_map(compare).collect()
}

/// A cached call once, and whether the buffers are as they must be.
pub fn cached_once(
    call: CachedCall,
    lent: &mut BatchBuffers,
    store: &mut [u8],
    problem: &[u8],
) -> Called {
    let mut hit = false;
    let single = |lent: &mut BatchBuffers| {
        let found = call(
            problem,
            &mut lent.costs,
            &mut lent.choices,
            &mut lent.work,
            store,
        );
        hit = found.hit != 0;
        put_result(lent, found.answer)
    };
    let mut called = call_once(single, lent, &[problem]);
    called.told[0].hit = Some(hit);
    called
}

/// A cached call, and again from other junk in all buffers but the store, which is as it was: the same answer
/// and hit, the same points and the same store, byte by byte.
pub fn cached_twice(
    call: CachedCall,
    lent: &mut BatchBuffers,
    store: &mut [u8],
    rng: &mut Rng,
    problem: &[u8],
) -> Called {
    let mut kept = store.to_vec();
    let first = cached_once(call, lent, store, problem);
    if !first.faults.is_empty() {
        return first;
    }
    let mut other = junk_areas(rng, lengths_of(lent));
    let again = cached_once(call, &mut other, &mut kept, problem);
    let mut faults = match again.faults.is_empty() {
        true => compare_lists(lent, &other, &[problem]),
        false => again.faults,
    };
    if faults.is_empty() && (first.told[0].hit != again.told[0].hit || *store != kept[..]) {
        let complaint = "from other junk the call tells another hit, or stores something else";
        faults.push(Fault::of(0, complaint));
    }
    let told = first.told;
    Called { told, faults }
}
