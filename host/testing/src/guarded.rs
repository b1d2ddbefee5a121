//! The calls on buffers between closed pages: a byte read or written beside one ends the process,
//! or is found afterwards.

use std::cell::RefCell;
use std::io;

use crate::guard::{End, Pages, Plain};
use frontier::lent::{
    read_text, write_batch, write_bound, write_cached, write_canonical, write_cut, write_points,
    write_solve, write_text, Answer, CachedAnswer, CachedNumbers, CutNumbers, Halves, Keyed, Least,
    PointRecord,
};
use frontier::limits::{
    CHOICES_LEN, COSTS_LEN, FRAME_BYTES, LEAST_WORK, MAX_BATCH, MAX_BYTES, MAX_OBJECTIVES,
    MAX_POINTS, MAX_SLOTS, MAX_VARIABLES, RESULT_LEN, SLOT_BYTES, TEXT_LEN,
};

/// Lent buffers may be longer than is of use by so much.
const OVER: usize = 1_000;

/// A batch may have a problem too many, and areas for two more.
const AREAS: usize = MAX_BATCH + 2;

/// A batch of small problems has at most so many bytes.
const SHORT_BATCH: usize = 20_000;

/// What the single numbers hold that a call is to write.
const JUNK: u32 = 0xa5a5_a5a5;

/// A test with every buffer against the upper closed page, and again against the lower: nothing beside one is
/// touched.
pub fn at_both_ends(test: impl Fn(&RefCell<Guarded>)) {
    for end in [End::Upper, End::Lower] {
        let guarded = RefCell::new(Guarded::new().expect("memory"));
        guarded.borrow_mut().end = end;
        test(&guarded);
        assert_eq!(guarded.borrow_mut().take_fault(), None);
    }
}

/// Memory for all that the calls are lent, each buffer between closed pages of its own.
pub struct Guarded {
    /// The end at which the buffers stand.
    pub end: End,
    problem: Pages,
    /// A side list or a prefix.
    list: Pages,
    /// Of one problem or of a batch.
    costs: Pages,
    choices: Pages,
    results: Pages,
    work: Pages,
    points: Pages,
    /// A text, or a canonical form.
    text: Pages,
    least: Pages,
    key: Pages,
    /// A store of a few slots, and a longer one: what is beside a buffer is compared after every call.
    stores: [Pages; 2],
    /// A batch of small problems, and a longer one.
    batches: [Pages; 2],
    hit: Pages,
    numbers: [Pages; 4],
    /// The first buffer that a call has misused.
    fault: Option<String>,
}

impl Guarded {
    pub fn new() -> io::Result<Guarded> {
        Ok(Guarded {
            end: End::Upper,
            problem: Pages::new(MAX_BYTES + OVER)?,
            list: Pages::new(MAX_VARIABLES)?,
            costs: Pages::new(size_of::<u32>() * COSTS_LEN * AREAS + OVER)?,
            choices: Pages::new(CHOICES_LEN * AREAS + OVER)?,
            results: Pages::new(size_of::<u32>() * RESULT_LEN * AREAS + OVER)?,
            work: Pages::new(size_of::<u32>() * (LEAST_WORK + OVER))?,
            points: Pages::new(size_of::<PointRecord>() * MAX_POINTS + OVER)?,
            text: Pages::new(TEXT_LEN + OVER)?,
            least: Pages::new(size_of::<u64>() * MAX_OBJECTIVES)?,
            key: Pages::new(size_of::<u64>())?,
            stores: [
                Pages::new(SLOT_BYTES * 4)?,
                Pages::new(SLOT_BYTES * (MAX_SLOTS + 1) + OVER)?,
            ],
            batches: [
                Pages::new(SHORT_BATCH)?,
                Pages::new((FRAME_BYTES + MAX_BYTES) * AREAS + OVER)?,
            ],
            hit: Pages::new(1)?,
            numbers: [number()?, number()?, number()?, number()?],
            fault: None,
        })
    }

    /// What was found since it was asked last: the first buffer that was misused, and how.
    pub fn take_fault(&mut self) -> Option<String> {
        self.fault.take()
    }

    /// The plain call.
    pub fn solve(
        &mut self,
        problem: &[u8],
        costs: &mut [u32],
        choices: &mut [u8],
        work: &mut [u32],
    ) -> Answer {
        let end = self.end;
        let [place, count, _, _] = &mut self.numbers;
        let number = write_solve(
            self.problem.lend(problem, end),
            self.costs.lend(costs, end),
            self.choices.lend(choices, end),
            self.work.lend(work, end),
            &mut place.lend(&[JUNK], end)[0],
            &mut count.lend(&[JUNK], end)[0],
        );
        self.take_flat(problem, costs, choices, work);
        let [place, count] = self.take_numbers();
        Answer {
            number,
            place,
            count,
        }
    }

    /// The cut call.
    pub fn cut(
        &mut self,
        problem: &[u8],
        sides: &[u8],
        costs: &mut [u32],
        choices: &mut [u8],
        work: &mut [u32],
    ) -> Halves {
        let end = self.end;
        let [place, count, first, second] = &mut self.numbers;
        let number = write_cut(
            self.problem.lend(problem, end),
            self.list.lend(sides, end),
            self.costs.lend(costs, end),
            self.choices.lend(choices, end),
            self.work.lend(work, end),
            CutNumbers {
                place: &mut place.lend(&[JUNK], end)[0],
                count: &mut count.lend(&[JUNK], end)[0],
                first: &mut first.lend(&[JUNK], end)[0],
                second: &mut second.lend(&[JUNK], end)[0],
            },
        );
        self.take_flat(problem, costs, choices, work);
        note(
            &mut self.fault,
            "side list",
            self.list.check_unchanged(sides),
        );
        Halves::from_numbers(number, self.take_numbers())
    }

    /// The bound call.
    pub fn bound(&mut self, problem: &[u8], prefix: &[u8]) -> Least {
        let end = self.end;
        let mut least = [u64::from(JUNK); MAX_OBJECTIVES];
        let lent = self.least.lend(&least, end);
        let number = write_bound(
            self.problem.lend(problem, end),
            self.list.lend(prefix, end),
            lent.try_into().expect("as many as there are objectives"),
            &mut self.numbers[0].lend(&[JUNK], end)[0],
        );
        self.check_problem(problem);
        note(&mut self.fault, "prefix", self.list.check_unchanged(prefix));
        take(&mut self.fault, "least", &mut self.least, &mut least);
        let [place] = self.take_numbers();
        Least {
            number,
            place,
            least,
        }
    }

    /// The call for point records.
    pub fn points(
        &mut self,
        problem: &[u8],
        points: &mut [PointRecord],
        work: &mut [u32],
    ) -> Answer {
        let end = self.end;
        let [place, count, _, _] = &mut self.numbers;
        let number = write_points(
            self.problem.lend(problem, end),
            self.points.lend(points, end),
            self.work.lend(work, end),
            &mut place.lend(&[JUNK], end)[0],
            &mut count.lend(&[JUNK], end)[0],
        );
        self.check_problem(problem);
        take(&mut self.fault, "point list", &mut self.points, points);
        take(&mut self.fault, "work", &mut self.work, work);
        let [place, count] = self.take_numbers();
        Answer {
            number,
            place,
            count,
        }
    }

    /// The text call.
    pub fn text(&mut self, problem: &[u8], text: &mut [u8]) -> Answer {
        let end = self.end;
        let [place, count, _, _] = &mut self.numbers;
        let number = write_text(
            self.problem.lend(problem, end),
            self.text.lend(text, end),
            &mut place.lend(&[JUNK], end)[0],
            &mut count.lend(&[JUNK], end)[0],
        );
        self.check_problem(problem);
        take(&mut self.fault, "text", &mut self.text, text);
        let [place, count] = self.take_numbers();
        Answer {
            number,
            place,
            count,
        }
    }

    /// The reading call, on a text that is not longer than what is written.
    pub fn read(&mut self, text: &[u8], problem: &mut [u8]) -> Answer {
        let end = self.end;
        let [place, count, _, _] = &mut self.numbers;
        let number = read_text(
            self.text.lend(text, end),
            self.problem.lend(problem, end),
            &mut place.lend(&[JUNK], end)[0],
            &mut count.lend(&[JUNK], end)[0],
        );
        note(&mut self.fault, "text", self.text.check_unchanged(text));
        take(&mut self.fault, "problem", &mut self.problem, problem);
        let [place, count] = self.take_numbers();
        Answer {
            number,
            place,
            count,
        }
    }

    /// The canonical call.
    pub fn canonical(&mut self, problem: &[u8], form: &mut [u8]) -> Keyed {
        let end = self.end;
        let mut key = [u64::from(JUNK)];
        let [place, count, _, _] = &mut self.numbers;
        let number = write_canonical(
            self.problem.lend(problem, end),
            self.text.lend(form, end),
            &mut place.lend(&[JUNK], end)[0],
            &mut count.lend(&[JUNK], end)[0],
            &mut self.key.lend(&key, end)[0],
        );
        self.check_problem(problem);
        take(&mut self.fault, "form", &mut self.text, form);
        take(&mut self.fault, "key", &mut self.key, &mut key);
        let [place, count] = self.take_numbers();
        let answer = Answer {
            number,
            place,
            count,
        };
        let [key] = key;
        Keyed { answer, key }
    }

    /// The cached call.
    pub fn cached(
        &mut self,
        problem: &[u8],
        costs: &mut [u32],
        choices: &mut [u8],
        work: &mut [u32],
        store: &mut [u8],
    ) -> CachedAnswer {
        let end = self.end;
        let mut hit = [JUNK as u8];
        let [place, count, _, _] = &mut self.numbers;
        let pages = &mut self.stores[usize::from(store.len() > SLOT_BYTES * 4)];
        let number = write_cached(
            self.problem.lend(problem, end),
            self.costs.lend(costs, end),
            self.choices.lend(choices, end),
            self.work.lend(work, end),
            pages.lend(store, end),
            CachedNumbers {
                place: &mut place.lend(&[JUNK], end)[0],
                count: &mut count.lend(&[JUNK], end)[0],
                hit: &mut self.hit.lend(&hit, end)[0],
            },
        );
        take(&mut self.fault, "store", pages, store);
        take(&mut self.fault, "hit", &mut self.hit, &mut hit);
        self.take_flat(problem, costs, choices, work);
        let [place, count] = self.take_numbers();
        let answer = Answer {
            number,
            place,
            count,
        };
        let [hit] = hit;
        CachedAnswer { answer, hit }
    }

    /// The batch call.
    pub fn batch(
        &mut self,
        batch: &[u8],
        costs: &mut [u32],
        choices: &mut [u8],
        results: &mut [u32],
        work: &mut [u32],
    ) -> Answer {
        let end = self.end;
        let [place, count, _, _] = &mut self.numbers;
        let pages = &mut self.batches[usize::from(batch.len() > SHORT_BATCH)];
        let number = write_batch(
            pages.lend(batch, end),
            self.costs.lend(costs, end),
            self.choices.lend(choices, end),
            self.results.lend(results, end),
            self.work.lend(work, end),
            &mut place.lend(&[JUNK], end)[0],
            &mut count.lend(&[JUNK], end)[0],
        );
        note(&mut self.fault, "batch", pages.check_unchanged(batch));
        take(&mut self.fault, "results", &mut self.results, results);
        self.take_areas(costs, choices, work);
        let [place, count] = self.take_numbers();
        Answer {
            number,
            place,
            count,
        }
    }

    fn check_problem(&mut self, problem: &[u8]) {
        note(
            &mut self.fault,
            "problem",
            self.problem.check_unchanged(problem),
        );
    }

    fn take_flat(
        &mut self,
        problem: &[u8],
        costs: &mut [u32],
        choices: &mut [u8],
        work: &mut [u32],
    ) {
        self.check_problem(problem);
        self.take_areas(costs, choices, work);
    }

    fn take_areas(&mut self, costs: &mut [u32], choices: &mut [u8], work: &mut [u32]) {
        take(&mut self.fault, "costs", &mut self.costs, costs);
        take(&mut self.fault, "choices", &mut self.choices, choices);
        take(&mut self.fault, "work", &mut self.work, work);
    }

    /// The first single numbers that a call has written.
    fn take_numbers<const N: usize>(&mut self) -> [u32; N] {
        let names = ["place", "count", "first size", "second size"];
        let mut values = [0; N];
        for (value, (name, pages)) in values.iter_mut().zip(names.iter().zip(&mut self.numbers)) {
            take(&mut self.fault, name, pages, std::slice::from_mut(value));
        }
        values
    }
}

fn number() -> io::Result<Pages> {
    Pages::new(size_of::<u32>())
}

/// Takes a buffer back.
fn take<T: Plain>(fault: &mut Option<String>, name: &str, pages: &mut Pages, into: &mut [T]) {
    note(fault, name, pages.take_back(into));
}

/// Keeps the first fault.
fn note(fault: &mut Option<String>, name: &str, checked: Result<(), String>) {
    if let Err(complaint) = checked {
        fault.get_or_insert(format!("the buffer '{name}' {complaint}"));
    }
}
