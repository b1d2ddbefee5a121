//! The cached call, independent twice over: by the prose alone (reference, section 15), as a list of the problems that
//! were stored; and by the layout of a slot, which says of any memory what the call answers and leaves there. And the
//! comparison with both.

use std::collections::VecDeque;

use crate::brute::{self, flat_room, read_with_work};
use crate::canonical::form_of;
use crate::mixed::{compare_outcomes, Mixed};
use crate::reading::read_problem;
use chooser::hex::to_hex;
use chooser::junk::Rng;
use frontier::lent::{Answer, Buffers, CachedAnswer, SolveCall};
use frontier::limits::{MAX_POINTS, MAX_SLOTS, SLOT_BYTES};
use frontier::refusal::FULL;
use frontier::{Problem, Refusal};

/// Where a slot has its parts, as the reference tells it.
pub const COSTS_AT: usize = 60_000;
pub const CHOICES_AT: usize = 61_024;
pub const LENGTH_AT: usize = 62_560;
pub const COUNT_AT: usize = 62_564;

/// Where slot 0 has the number of the slot that is written next.
pub const NEXT_AT: usize = 62_568;

/// How many slots a store of so many bytes has.
pub fn slots_in(length: usize) -> usize {
    (length / SLOT_BYTES).min(MAX_SLOTS)
}

/// Reads the problem and asks for enough work memory and a slot: refusals 1 to 12, and 20.
fn read_with_store(problem: &[u8], work: &[u32], store: usize) -> Result<Problem, Refusal> {
    let reading = read_with_work(problem, work)?;
    match slots_in(store) {
        0 => Err(Refusal::Store),
        _ => Ok(reading.problem),
    }
}

/// The answer with room for 64 points, by a plain call; none if there are more.
fn whole_answer(fresh: SolveCall, bytes: &[u8]) -> Option<(Answer, Buffers)> {
    let mut lent = Buffers::full();
    let answer = lent.lend(fresh, bytes);
    (answer.number != FULL).then_some((answer, lent))
}

// ---- by the prose

/// A cache by the prose: the forms of the last problems that were stored, as many as there are slots, the oldest first.
/// It keeps no answers, since they must be those of a plain call.
pub struct Cache {
    fresh: SolveCall,
    store: usize,
    stored: VecDeque<Vec<u8>>,
}

impl Cache {
    /// What a cleared store of so many bytes is, with this plain call for the answers.
    pub fn new(fresh: SolveCall, store: usize) -> Cache {
        Cache {
            fresh,
            store,
            stored: VecDeque::new(),
        }
    }

    /// The cached call.
    pub fn solve(
        &mut self,
        bytes: &[u8],
        costs: &mut [u32],
        choices: &mut [u8],
        work: &mut [u32],
    ) -> CachedAnswer {
        let problem = match read_with_store(bytes, work, self.store) {
            Err(refusal) => return refusal.into(),
            Ok(problem) => problem,
        };
        let form = form_of(&problem);
        let hit = self.stored.contains(&form);
        let answer = (self.fresh)(bytes, costs, choices, work);
        if !hit && (answer.number == 0 || whole_answer(self.fresh, bytes).is_some()) {
            self.stored.push_back(form);
            if self.stored.len() > slots_in(self.store) {
                self.stored.pop_front();
            }
        }
        CachedAnswer {
            answer,
            hit: hit.into(),
        }
    }
}

// ---- by the layout

/// The four bytes there as a number.
fn number_at(bytes: &[u8], at: usize) -> usize {
    let four = bytes[at..at + 4].try_into().expect("four bytes");
    u32::from_le_bytes(four) as usize
}

/// Writes a number into four bytes.
pub fn put_number(bytes: &mut [u8], at: usize, number: usize) {
    let number = u32::try_from(number).expect("it fits four bytes");
    bytes[at..at + 4].copy_from_slice(&number.to_le_bytes());
}

/// The bytes of a slot.
pub fn slot(store: &mut [u8], number: usize) -> &mut [u8] {
    &mut store[number * SLOT_BYTES..][..SLOT_BYTES]
}

/// A list of points one after another, as a slot holds it and the flat buffers take it.
struct Flat {
    count: usize,
    costs: Vec<u32>,
    choices: Vec<u8>,
}

impl Flat {
    /// The list that a slot holds for a problem with p objectives and n variables, whatever stands there.
    fn load(slot: &[u8], p: usize, n: usize) -> Flat {
        let count = number_at(slot, COUNT_AT).min(MAX_POINTS);
        let cost = |i: usize| number_at(slot, COSTS_AT + 4 * i) as u32;
        Flat {
            count,
            costs: (0..count * p).map(cost).collect(),
            choices: slot[CHOICES_AT..][..count * n].to_vec(),
        }
    }

    /// The list that a plain call has left in the buffers.
    fn fresh((answer, lent): (Answer, Buffers), p: usize, n: usize) -> Flat {
        let count = answer.count as usize;
        Flat {
            count,
            costs: lent.costs[..count * p].to_vec(),
            choices: lent.choices[..count * n].to_vec(),
        }
    }

    /// Writes a problem's form and this list over a slot; what lies between its parts stays.
    fn save(&self, form: &[u8], slot: &mut [u8]) {
        slot[..form.len()].copy_from_slice(form);
        for (i, &cost) in self.costs.iter().enumerate() {
            put_number(slot, COSTS_AT + 4 * i, cost as usize);
        }
        slot[CHOICES_AT..][..self.choices.len()].copy_from_slice(&self.choices);
        put_number(slot, LENGTH_AT, form.len());
        put_number(slot, COUNT_AT, self.count);
    }

    /// Writes it into the flat buffers, if they have the room.
    fn write(&self, room: usize, costs: &mut [u32], choices: &mut [u8]) -> Answer {
        if self.count > room {
            return Refusal::Full.into();
        }
        costs[..self.costs.len()].copy_from_slice(&self.costs);
        choices[..self.choices.len()].copy_from_slice(&self.choices);
        Answer::accepted(self.count)
    }
}

/// The cached call on any memory, with this plain call for the answers that are not there.
pub fn solve_cached(
    fresh: SolveCall,
    bytes: &[u8],
    costs: &mut [u32],
    choices: &mut [u8],
    work: &mut [u32],
    store: &mut [u8],
) -> CachedAnswer {
    let problem = match read_with_store(bytes, work, store.len()) {
        Err(refusal) => return refusal.into(),
        Ok(problem) => problem,
    };
    let (p, n) = (problem.objectives(), problem.variables());
    let (form, slots) = (form_of(&problem), slots_in(store.len()));
    let holds = |slot: &[u8]| number_at(slot, LENGTH_AT) == form.len() && slot.starts_with(&form);
    let held = (0..slots).find(|&k| holds(slot(store, k)));
    let room = flat_room(&problem, costs, choices);
    work.fill(0);
    let list = match held {
        Some(k) => Flat::load(slot(store, k), p, n),
        None => match whole_answer(fresh, bytes) {
            Some(answer) => Flat::fresh(answer, p, n),
            None => return Refusal::Full.into(),
        },
    };
    if held.is_none() {
        let next = Some(number_at(store, NEXT_AT)).filter(|&next| next < slots);
        let next = next.unwrap_or(0);
        list.save(&form, slot(store, next));
        put_number(store, NEXT_AT, (next + 1) % slots);
    }
    CachedAnswer {
        answer: list.write(room, costs, choices),
        hit: held.is_some().into(),
    }
}

// ---- comparison

/// What a call has answered and left.
pub struct Left {
    pub found: CachedAnswer,
    pub lent: Buffers,
    pub store: Vec<u8>,
}

/// Compares a cached call with the one by the layout on one problem, each lent a copy of the buffers and of the store.
/// A difference is told with the bytes in hex.
pub fn compare_cached(
    fresh: SolveCall,
    problem: &[u8],
    lent: &Buffers,
    store: &[u8],
    call: impl Fn(&[u8], &mut [u32], &mut [u8], &mut [u32], &mut [u8]) -> CachedAnswer,
) -> Result<Left, String> {
    let [mut left, mut right] = [lent.clone(), lent.clone()];
    let [mut store, mut due] = [store.to_vec(), store.to_vec()];
    let found = left.lend_cached(call, problem, &mut store);
    let expected = right.lend_cached(
        |bytes, costs, choices, work, store| {
            solve_cached(fresh, bytes, costs, choices, work, store)
        },
        problem,
        &mut due,
    );
    compare_outcomes(problem, [found, expected], [left.clone(), right])?;
    if store != due {
        let place = (0..store.len()).find(|&i| store[i] != due[i]);
        let place = place.expect("they are equally long");
        let (length, bytes) = (store.len(), to_hex(problem));
        return Err(format!(
            "after {found:?} byte {} of slot {} is {} instead of {}, store of {length}, bytes {bytes}",
            place % SLOT_BYTES,
            place / SLOT_BYTES,
            store[place],
            due[place],
        ));
    }
    let lent = left;
    Ok(Left { found, lent, store })
}

/// A run of calls on one store, which begins cleared. Each is compared with the cache by the prose and with the call by
/// the layout.
pub struct Run {
    fresh: SolveCall,
    cache: Cache,
    store: Vec<u8>,
}

impl Run {
    /// A cleared store of so many bytes, with this plain call for the answers.
    pub fn new(fresh: SolveCall, store: usize) -> Run {
        Run {
            fresh,
            cache: Cache::new(fresh, store),
            store: vec![0; store],
        }
    }

    /// The next call, lent a copy of the buffers, and what it answers; or a difference.
    pub fn compare(
        &mut self,
        problem: &[u8],
        lent: &Buffers,
        call: impl Fn(&[u8], &mut [u32], &mut [u8], &mut [u32], &mut [u8]) -> CachedAnswer,
    ) -> Result<CachedAnswer, String> {
        let left = compare_cached(self.fresh, problem, lent, &self.store, call)?;
        let mut due = lent.clone();
        let Buffers {
            costs,
            choices,
            work,
        } = &mut due;
        let expected = self.cache.solve(problem, costs, choices, work);
        compare_outcomes(problem, [left.found, expected], [left.lent, due])?;
        self.store = left.store;
        Ok(left.found)
    }
}

// ---- any memory

/// So many bytes of junk.
fn junk_store(rng: &mut Rng, length: usize) -> Vec<u8> {
    let words = (0..length.div_ceil(8)).map(|_| rng.bits().to_le_bytes());
    let mut store = words.collect::<Vec<_>>().concat();
    store.truncate(length);
    store
}

/// Memory that is lent as a store for a problem's bytes: too short, cleared, or with junk; with junk often also the
/// form of the problem in a slot, or what is nearly that, and a next number that is one or none.
pub fn any_store(rng: &mut Rng, bytes: &[u8]) -> Vec<u8> {
    if rng.once_in(12) {
        let length = rng.pick(&[0, 1, LENGTH_AT, SLOT_BYTES - 1]);
        return junk_store(rng, length);
    }
    let length = SLOT_BYTES * (1 + rng.below(3)) + rng.pick(&[0, 0, 1, SLOT_BYTES - 1]);
    if rng.once_in(4) {
        return vec![0; length];
    }
    let (mut store, slots) = (junk_store(rng, length), slots_in(length));
    if rng.once_in(2) {
        put_number(&mut store, NEXT_AT, rng.below(slots + 2));
    }
    let Ok(reading) = read_problem(bytes) else {
        return store;
    };
    let form = form_of(&reading.problem);
    // Several slots may hold the form: the first of them counts.
    for number in 0..slots {
        let nearly = rng.below(8);
        let count = rng.pick(&[0, 1, 2, 3, 20, 63, 64, 65, 300]);
        let slot = slot(&mut store, number);
        if nearly == 0 {
            continue;
        }
        slot[..form.len()].copy_from_slice(&form);
        put_number(slot, LENGTH_AT, form.len());
        match nearly {
            1 => put_number(slot, LENGTH_AT, form.len() + 1),
            2 => put_number(slot, LENGTH_AT, form.len() - 1),
            3 => slot[form.len() - 1] ^= 1,
            4 => slot[rng.below(form.len())] ^= 0x80,
            5 => put_number(slot, LENGTH_AT, form.len() + (1 << 16)),
            _ => {}
        }
        if !rng.once_in(3) {
            put_number(slot, COUNT_AT, count);
        }
    }
    store
}

impl Mixed {
    /// The store that a cached call is lent for the case. Its generator is its own, so that the case is the same for
    /// the other calls.
    pub fn store(&self) -> Vec<u8> {
        any_store(&mut Rng::new(self.seed ^ 0x570e), &self.bytes)
    }

    /// Compares a cached call with the one by the layout and the brute force: the answer and all that is left in the
    /// buffers and in the store. A difference is told with the seed and the bytes.
    pub fn compare_cached(
        &self,
        call: impl Fn(&[u8], &mut [u32], &mut [u8], &mut [u32], &mut [u8]) -> CachedAnswer,
    ) -> Result<CachedAnswer, String> {
        let fresh = brute::solve_problem;
        let compared = compare_cached(fresh, &self.bytes, &self.lent, &self.store(), call);
        let found = compared.map(|left| left.found);
        found.map_err(|difference| format!("seed {}: {difference}", self.seed))
    }
}
