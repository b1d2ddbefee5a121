//! Batch calls that read the rules otherwise, each in one thing; the comparison must tell each of them.

use crate::batch::{first_frame, judge, problems_by, problems_in, solve_one, FirstFrame};
use crate::batch::{CHOICES, COSTS, HEAD, MOST, RESULTS};
use crate::brute::solve_problem;
use frontier::lent::{frame, Answer};
use frontier::limits::{LEAST_WORK, MAX_BYTES};
use frontier::refusal::WORK;
use frontier::Refusal;

/// A batch call, as `solve_batch` is.
pub type Batcher<'a> = &'a dyn Fn(&[u8], &mut [u32], &mut [u8], &mut [u32], &mut [u32]) -> Answer;

/// A way to read the rules, by name.
type Reading = (&'static str, fn(&[u8], &mut Lent) -> Answer);

/// What a batch call is lent.
struct Lent<'a> {
    costs: &'a mut [u32],
    choices: &'a mut [u8],
    results: &'a mut [u32],
    work: &'a mut [u32],
}

impl Lent<'_> {
    fn lengths(&self) -> [usize; 4] {
        let [costs, results] = [self.costs.len(), self.results.len()];
        [costs, self.choices.len(), results, self.work.len()]
    }

    /// The plain call for problem `k`, on its areas.
    fn solve(&mut self, problem: &[u8], k: usize) -> Answer {
        let (costs, choices) = (&mut *self.costs, &mut *self.choices);
        let (results, work) = (&mut *self.results, &mut *self.work);
        solve_one(solve_problem, problem, k, costs, choices, results, work)
    }

    /// The results of problem `k`.
    fn result(&mut self, k: usize) -> &mut [u32] {
        &mut self.results[RESULTS * k..][..RESULTS]
    }
}

/// The rules as they are.
fn right(batch: &[u8], lent: &mut Lent) -> Answer {
    by_steps(batch, lent, |lent, problems| {
        for (k, problem) in problems.iter().enumerate() {
            lent.solve(problem, k);
        }
    })
}

/// The rules with another way to solve the problems of an accepted batch.
fn by_steps(batch: &[u8], lent: &mut Lent, solve: impl Fn(&mut Lent, &[&[u8]])) -> Answer {
    match judge(batch, lent.lengths()) {
        Err(refusal) => refusal.into(),
        Ok(problems) => {
            solve(lent, &problems);
            Answer::accepted(problems.len())
        }
    }
}

/// The rules, and then something wrong with what an accepted batch of so many problems has left.
fn then(batch: &[u8], lent: &mut Lent, tamper: impl Fn(&mut Lent, usize)) -> Answer {
    let answer = right(batch, lent);
    if answer.number == 0 {
        tamper(lent, answer.count as usize);
    }
    answer
}

/// The rules with buffers that count as longer or shorter. Where an area is missing after all nothing is solved.
fn by_lengths(batch: &[u8], lent: &mut Lent, taken: fn([usize; 4]) -> [usize; 4]) -> Answer {
    match (
        judge(batch, taken(lent.lengths())),
        judge(batch, lent.lengths()),
    ) {
        (Err(refusal), _) => refusal.into(),
        (Ok(problems), Err(_)) => Answer::accepted(problems.len()),
        _ => right(batch, lent),
    }
}

/// The rules, but 21 of a batch with such problems.
fn without(batch: &[u8], lent: &mut Lent, has: fn(&[&[u8]]) -> bool) -> Answer {
    match problems_in(batch).is_some_and(|problems| has(&problems)) {
        true => Refusal::Batch.into(),
        false => right(batch, lent),
    }
}

/// The rules with another way to read a frame: as if what is read so were the problems of a batch with right frames.
fn by_frames(batch: &[u8], lent: &mut Lent, first: FirstFrame) -> Answer {
    match problems_by(first, batch) {
        None => Refusal::Batch.into(),
        Some(problems) => right(&frame(&problems), lent),
    }
}

/// The problem of a frame whose mark is right or not, with this reading of its length.
fn framed(bytes: &[u8], marked: bool, length: fn([u8; 4]) -> u32) -> Option<(&[u8], &[u8])> {
    let four = bytes.get(2..HEAD)?.try_into().ok()?;
    let parted = bytes[HEAD..].split_at_checked(length(four) as usize);
    parted.filter(|_| marked)
}

/// Wrong refusals of the whole, and wrong counts.
const MISJUDGED: [Reading; 15] = [
    ("12 before 21", |batch, lent| {
        match lent.work.len() < LEAST_WORK {
            true => Refusal::Work.into(),
            false => right(batch, lent),
        }
    }),
    ("12 of each problem", |batch, lent| {
        let first = twelve_late(batch, lent, MOST);
        first.unwrap_or_else(|| right(batch, lent))
    }),
    ("12 after the first problem", |batch, lent| {
        twelve_late(batch, lent, 1);
        right(batch, lent)
    }),
    ("12 with problems alone", |batch, lent| {
        match batch.is_empty() {
            true => Answer::accepted(0),
            false => right(batch, lent),
        }
    }),
    ("12 in the results", |batch, lent| {
        let answer = right(batch, lent);
        if answer.number == WORK {
            lent.results.fill(WORK.into());
        }
        answer
    }),
    ("21 while solving", |batch, lent| {
        solve_frames(batch, lent);
        by_steps(batch, lent, |_, _| {})
    }),
    ("a part of the costs will do", |batch, lent| {
        by_lengths(batch, lent, |[costs, choices, results, work]| {
            [costs.next_multiple_of(COSTS), choices, results, work]
        })
    }),
    ("a part of the choices will do", |batch, lent| {
        by_lengths(batch, lent, |[costs, choices, results, work]| {
            [costs, choices.next_multiple_of(CHOICES), results, work]
        })
    }),
    ("a part of the results will do", |batch, lent| {
        by_lengths(batch, lent, |[costs, choices, results, work]| {
            [costs, choices, results.next_multiple_of(RESULTS), work]
        })
    }),
    ("an element behind the areas", |batch, lent| {
        by_lengths(batch, lent, |[costs, choices, results, work]| {
            [costs.saturating_sub(1), choices, results, work]
        })
    }),
    ("at most 15", |batch, lent| {
        without(batch, lent, |problems| problems.len() == MOST)
    }),
    ("at most 17", |batch, lent| {
        match problems_in(batch).is_some_and(|problems| problems.len() == MOST + 1) {
            true => Answer::accepted(MOST + 1),
            false => right(batch, lent),
        }
    }),
    ("60,001 bytes are no frame", |batch, lent| {
        without(batch, lent, |problems| {
            problems.iter().any(|problem| problem.len() > MAX_BYTES)
        })
    }),
    ("the first refusal of a problem", |batch, lent| {
        let answer = right(batch, lent);
        let mut told = (0..answer.count as usize).map(|k| lent.result(k)[0] as u8);
        let number = told.find(|&number| number > 0).unwrap_or(answer.number);
        Answer { number, ..answer }
    }),
    ("a count of the answered", |batch, lent| {
        let answer = right(batch, lent);
        let told = (0..answer.count as usize).map(|k| lent.result(k)[0]);
        let count = told.filter(|&number| number == 0).count() as u32;
        Answer { count, ..answer }
    }),
];

/// With too little work memory plain calls for the first problems, as many as these, if all else is right.
fn twelve_late(batch: &[u8], lent: &mut Lent, most: usize) -> Option<Answer> {
    let [costs, choices, results, work] = lent.lengths();
    let problems = judge(batch, [costs, choices, results, LEAST_WORK]).ok()?;
    if work >= LEAST_WORK {
        return None;
    }
    for (k, problem) in problems.iter().take(most).enumerate() {
        lent.solve(problem, k);
    }
    Some(Answer::accepted(problems.len()))
}

/// Plain calls for the frames up to the first that is wrong or has no areas.
fn solve_frames(batch: &[u8], lent: &mut Lent) {
    let (mut rest, mut k) = (batch, 0);
    while let Some((problem, behind)) = first_frame(rest) {
        // A batch of so many problems would be accepted.
        if judge(&frame(&vec![&[][..]; k + 1]), lent.lengths()).is_err() {
            return;
        }
        lent.solve(problem, k);
        (rest, k) = (behind, k + 1);
    }
}

/// Wrong readings of frames.
const MISFRAMED: [Reading; 7] = [
    ("first letter not asked", |batch, lent| {
        by_frames(batch, lent, |bytes| {
            framed(bytes, bytes.get(1) == Some(&b'P'), u32::from_le_bytes)
        })
    }),
    ("second letter not asked", |batch, lent| {
        by_frames(batch, lent, |bytes| {
            framed(bytes, bytes.first() == Some(&b'B'), u32::from_le_bytes)
        })
    }),
    ("greatest byte first", |batch, lent| {
        by_frames(batch, lent, |bytes| {
            framed(bytes, bytes.starts_with(b"BP"), u32::from_be_bytes)
        })
    }),
    ("length of two bytes", |batch, lent| {
        by_frames(batch, lent, |bytes| {
            let low = |[a, b, _, _]: [u8; 4]| u16::from_le_bytes([a, b]).into();
            framed(bytes, bytes.starts_with(b"BP"), low)
        })
    }),
    ("as many bytes as there are", |batch, lent| {
        by_frames(batch, lent, |bytes| {
            let whole = first_frame(bytes);
            let head = bytes.starts_with(b"BP").then(|| bytes.get(HEAD..));
            whole.or_else(|| Some((head.flatten()?, &[])))
        })
    }),
    ("no empty problem", |batch, lent| {
        without(batch, lent, |problems| {
            problems.iter().any(|problem| problem.is_empty())
        })
    }),
    ("less than a head is no frame", |batch, lent| {
        let mut rest = batch;
        while let Some((_, behind)) = first_frame(rest) {
            rest = behind;
        }
        let read = match rest.len() < HEAD {
            true => batch.len() - rest.len(),
            false => batch.len(),
        };
        right(&batch[..read], lent)
    }),
];

/// Wrong areas, results and work memory.
const MISPLACED: [Reading; 14] = [
    ("areas of the problem before", |batch, lent| {
        by_steps(batch, lent, |lent, problems| {
            for (k, problem) in problems.iter().enumerate() {
                let answer = lent.solve(problem, k.saturating_sub(1));
                let told = [answer.number.into(), answer.place, answer.count];
                lent.result(k).copy_from_slice(&told);
            }
        })
    }),
    ("areas from the last one on", |batch, lent| {
        by_steps(batch, lent, |lent, problems| {
            for (k, problem) in problems.iter().rev().enumerate() {
                lent.solve(problem, k);
            }
        })
    }),
    ("place and count exchanged", |batch, lent| {
        then(batch, lent, |lent, count| {
            (0..count).for_each(|k| lent.result(k).swap(1, 2));
        })
    }),
    ("results shifted", |batch, lent| {
        then(batch, lent, |lent, count| {
            lent.results[..RESULTS * count].rotate_right(count.min(1));
        })
    }),
    ("numbers first, then places", |batch, lent| {
        then(batch, lent, |lent, count| {
            let told = lent.results[..RESULTS * count].to_vec();
            for (i, number) in told.iter().enumerate() {
                lent.results[i % RESULTS * count + i / RESULTS] = *number;
            }
        })
    }),
    ("place in the batch", |batch, lent| {
        then(batch, lent, |lent, count| {
            let mut rest = batch;
            for k in 0..count {
                let start = batch.len() - rest.len();
                let told = lent.result(k);
                told[1] += (start + HEAD) as u32 * told[0].min(1);
                rest = first_frame(rest).expect("an accepted batch").1;
            }
        })
    }),
    ("ended by a refusal", |batch, lent| {
        by_steps(batch, lent, |lent, problems| {
            let mut all = problems.iter().enumerate();
            all.find(|(k, problem)| lent.solve(problem, *k).number > 0);
        })
    }),
    ("no results of a refusal", |batch, lent| {
        let before = lent.results.to_vec();
        then(batch, lent, |lent, count| {
            for (k, before) in before.chunks(RESULTS).take(count).enumerate() {
                if lent.result(k)[0] > 0 {
                    lent.result(k).copy_from_slice(before);
                }
            }
        })
    }),
    ("results cleared behind the last", |batch, lent| {
        then(batch, lent, |lent, count| {
            lent.results[RESULTS * count..].fill(0);
        })
    }),
    ("costs cleared behind the last", |batch, lent| {
        then(batch, lent, |lent, count| {
            lent.costs[COSTS * count..].fill(0);
        })
    }),
    ("choices cleared behind the last", |batch, lent| {
        then(batch, lent, |lent, count| {
            lent.choices[CHOICES * count..].fill(0);
        })
    }),
    ("work cleared by an empty batch", |batch, lent| {
        then(batch, lent, |lent, count| {
            lent.work.fill(lent.work[0] * count.min(1) as u32);
        })
    }),
    ("work cleared by refused problems", |batch, lent| {
        then(batch, lent, |lent, count| match count {
            0 => (),
            _ => lent.work.fill(0),
        })
    }),
    ("work as it was", |batch, lent| {
        let before = lent.work.to_vec();
        then(batch, lent, |lent, _| lent.work.copy_from_slice(&before))
    }),
];

/// Hands each batch call with wrong refusals of the whole to the test, by name.
pub fn each_misjudging_batcher(test: impl Fn(&str, Batcher)) {
    hand(&MISJUDGED, test);
}

/// Hands each batch call that reads frames otherwise to the test, by name.
pub fn each_misframing_batcher(test: impl Fn(&str, Batcher)) {
    hand(&MISFRAMED, test);
}

/// Hands each batch call that leaves something else in the buffers to the test, by name.
pub fn each_misplacing_batcher(test: impl Fn(&str, Batcher)) {
    hand(&MISPLACED, test);
}

/// Hands readings to the test as calls.
fn hand(readings: &[Reading], test: impl Fn(&str, Batcher)) {
    for (name, reading) in readings {
        test(name, &|batch, costs, choices, results, work| {
            let mut lent = Lent {
                costs,
                choices,
                results,
                work,
            };
            reading(batch, &mut lent)
        });
    }
}
