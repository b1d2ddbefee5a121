//! The cached call of the static library: runs of calls on one store against a cache by the prose and against the call
//! by the layout of a slot, byte by byte; stores of every length that matters; and memory that never was a store.

use std::cell::RefCell;
use std::collections::{BTreeMap, BTreeSet};
use std::ops::Range;

use chooser::junk::{junk, junk_buffers, Rng};
use frontier::lent::{self, Answer, Buffers, CachedAnswer, CachedNumbers};
use frontier::limits::{LEAST_WORK, MAX_BYTES, MAX_POINTS, MAX_SLOTS, SLOT_BYTES};
use frontier::refusal::{FULL, STORE, WORK};
use frontier::{Chooser, Problem, Refusal, Store, Table, FORBIDDEN};
use testing::brute;
use testing::cache::{any_store, compare_cached, put_number, slot, slots_in, Run};
use testing::cache::{CHOICES_AT, COSTS_AT, COUNT_AT, LENGTH_AT, NEXT_AT};
use testing::canonical::form_of;
use testing::examples::{brimful, lone, stairs_of, ten_problems, three, turned};
use testing::guard::End;
use testing::guarded::{at_both_ends, Guarded};
use testing::layouts::{layouts, random_layout};
use testing::mixed::{compare_seeds, Mixed};
use testing::owned::frontier_of;
use testing::random::{damage, random_problem, Shape};
use testing::reading::read_problem;
use testing::stored::nightly;

/// The call with junk where it writes its numbers.
fn call(
    problem: &[u8],
    costs: &mut [u32],
    choices: &mut [u8],
    work: &mut [u32],
    store: &mut [u8],
) -> CachedAnswer {
    let (mut place, mut count, mut hit) = (0xa5a5_a5a5, 0xa5a5_a5a5, 0xa5);
    let numbers = CachedNumbers {
        place: &mut place,
        count: &mut count,
        hit: &mut hit,
    };
    let number = lent::write_cached(problem, costs, choices, work, store, numbers);
    let answer = Answer {
        number,
        place,
        count,
    };
    CachedAnswer { answer, hit }
}

/// Buffers with junk and room for exactly so many points of a problem, or the next length that has it.
fn room_for(rng: &mut Rng, problem: &Problem, room: usize) -> Buffers {
    let (p, n) = (problem.objectives(), problem.variables());
    let mut lengths = [room * p + rng.below(p), room * n + rng.below(n)];
    // One of the two buffers may have more room.
    lengths[rng.below(2)] += rng.pick(&[0, 0, 100]);
    let work = LEAST_WORK + rng.below(3);
    junk(rng, lengths[0], lengths[1], work)
}

/// A run whose calls are compared with the brute force.
struct Asked {
    run: Run,
    rng: Rng,
}

impl Asked {
    fn new(store: usize) -> Asked {
        Asked {
            run: Run::new(brute::solve_problem, store),
            rng: Rng::new(store as u64),
        }
    }

    /// The next call, in a random layout and with this room: its number and hit.
    fn ask(&mut self, problem: &Problem, room: usize) -> (u8, u8) {
        let layout = random_layout(&mut self.rng, problem).encode();
        let lent = room_for(&mut self.rng, problem, room);
        self.ask_bytes(&layout, &lent)
    }

    fn ask_bytes(&mut self, bytes: &[u8], lent: &Buffers) -> (u8, u8) {
        let found = self.run.compare(bytes, lent, call);
        let found = found.unwrap_or_else(|difference| panic!("{difference}"));
        (found.answer.number, found.hit)
    }
}

// ---- runs

/// Small problems that differ, some of them with no consistent choice and one with more than 64 points.
fn pool(rng: &mut Rng, size: usize) -> Vec<Problem> {
    let mut forms = BTreeSet::new();
    let mut problems = vec![stairs_of(65), stairs_of(64)];
    while problems.len() < size {
        let mut problem = random_problem(rng, &Shape::small());
        if rng.once_in(6) {
            problem.tables.push(Table::new(0, &[], &[FORBIDDEN]));
        }
        if forms.insert(form_of(&problem)) {
            problems.push(problem);
        }
    }
    problems
}

/// How often a run met what: each number with a hit or without.
type Met = BTreeMap<(u8, u8), usize>;

/// A run of 200 calls with a store of so many bytes on so many problems: layouts of them, damaged ones, rooms from 0 to
/// 64, and now and then too little work memory.
fn run_of_200(store: usize, size: usize, seed: u64) -> Met {
    let mut rng = Rng::new(seed);
    let (pool, mut asked, mut met) = (pool(&mut rng, size), Asked::new(store), Met::new());
    for _ in 0..200 {
        let problem = &pool[rng.below(pool.len())];
        let layout = rng.below(7);
        let mut bytes = layouts(&mut rng, problem)[layout].encode();
        let room = rng.pick(&[0, 1, 2, 3, 5, 8, 13, 34, 63, 64, 64, 64, 70]);
        let mut lent = room_for(&mut rng, problem, room);
        match rng.below(10) {
            0 => damage(&mut rng, &mut bytes),
            1 => lent.work.truncate(LEAST_WORK - 1),
            _ => {}
        }
        *met.entry(asked.ask_bytes(&bytes, &lent)).or_default() += 1;
    }
    met
}

/// Asserts runs with so many slots, on few problems and on more than there are slots.
fn assert_runs(slots: usize, store: usize) {
    assert_eq!(slots_in(store), slots);
    let mut all = Met::new();
    for (seed, size) in [(1, slots + 3), (2, slots + slots / 2 + 4), (3, 5)] {
        for (met, times) in run_of_200(store, size, seed) {
            *all.entry(met).or_default() += times;
        }
    }
    let times = |number: u8, hit: u8| all.get(&(number, hit)).copied().unwrap_or(0);
    assert!(times(0, 1) > 40, "hits: {all:?}");
    assert!(times(0, 0) > 40, "answers that were no hit: {all:?}");
    assert!(times(FULL, 1) > 5, "hits without room: {all:?}");
    assert!(times(FULL, 0) > 5, "{all:?}");
    assert!(times(WORK, 0) > 5, "{all:?}");
    let refused = all.keys().filter(|(number, _)| (1..=11).contains(number));
    assert!(refused.count() > 2, "refused problems: {all:?}");
}

#[test]
fn runs_with_one_slot() {
    assert_runs(1, SLOT_BYTES);
}

#[test]
fn runs_with_two_slots() {
    assert_runs(2, 2 * SLOT_BYTES);
}

#[test]
fn runs_with_five_slots() {
    assert_runs(5, 5 * SLOT_BYTES + 17);
}

#[test]
fn runs_with_32_slots() {
    assert_runs(32, 32 * SLOT_BYTES);
}

#[test]
fn runs_with_33_slots_are_runs_with_32() {
    assert_runs(32, 33 * SLOT_BYTES);
}

/// Problems by letters, each with as many points as the letter's place, from 1 on.
fn lettered(letter: char) -> Problem {
    stairs_of(letter as u32 - 'A' as u32 + 1)
}

/// Asks for problems by letters, and gives those that were hits.
fn hits(store: usize, letters: &str) -> String {
    let mut asked = Asked::new(store);
    let asked = letters
        .chars()
        .filter(|&letter| asked.ask(&lettered(letter), MAX_POINTS) == (0, 1));
    asked.collect()
}

/// What is a hit depends on the last problems stored, and not on the last ones asked for.
#[test]
fn the_oldest_gives_way_and_a_hit_renews_nothing() {
    assert_eq!(hits(SLOT_BYTES, "AABAABB"), "AAB");
    assert_eq!(hits(2 * SLOT_BYTES, "ABABAACBAC"), "ABAABC");
    assert_eq!(hits(2 * SLOT_BYTES, "ABCABC"), "");
    assert_eq!(hits(3 * SLOT_BYTES, "ABCABCDABCD"), "ABC");
    assert_eq!(hits(3 * SLOT_BYTES, "ABCDDBCDA"), "DBCD");
    // Once round and further.
    assert_eq!(hits(2 * SLOT_BYTES, "ABCDEFGFGEGE"), "FGGE");
}

/// With as many different problems as slots all are hits from the second time on, and with one more none is.
#[test]
fn as_many_problems_as_slots_are_held() {
    let letters: String = (0..33u8).map(|i| char::from(b'A' + i)).collect();
    for store in [32 * SLOT_BYTES, 32 * SLOT_BYTES + 1, 33 * SLOT_BYTES] {
        let held = &letters[..32];
        assert_eq!(hits(store, &held.repeat(2)), held);
        assert_eq!(hits(store, &letters.repeat(2)), "");
    }
}

/// The room that counts is the caller's, whoever stored the answer, and 15 is told with the hit.
#[test]
fn number_15_is_told_by_the_room_of_the_call() {
    let problem = stairs_of(40);
    for first in [0, 1, 39, 40, 41, 64] {
        let mut asked = Asked::new(SLOT_BYTES);
        let due = if first < 40 { FULL } else { 0 };
        assert_eq!(asked.ask(&problem, first), (due, 0));
        for room in (0..=64).chain([70]) {
            let due = if room < 40 { FULL } else { 0 };
            assert_eq!(asked.ask(&problem, room), (due, 1), "room {room}");
        }
    }
}

#[test]
fn an_empty_frontier_is_stored() {
    for room in [0, 3, 64] {
        let mut asked = Asked::new(SLOT_BYTES);
        let problem = stairs_of(0);
        assert_eq!(asked.ask(&problem, room), (0, 0));
        assert_eq!(asked.ask(&problem, 0), (0, 1));
        assert_eq!(asked.ask(&problem, 64), (0, 1));
    }
}

/// Neither are others stored that are refused, and none of them costs a slot.
#[test]
fn more_than_64_points_are_not_stored_and_cost_no_slot() {
    let mut asked = Asked::new(SLOT_BYTES);
    let (held, long) = (stairs_of(64), stairs_of(65));
    for room in [0, 63, 64, 70] {
        assert_eq!(asked.ask(&long, room), (FULL, 0));
    }
    assert_eq!(asked.ask(&held, 0), (FULL, 0));
    for room in [0, 63, 64, 70] {
        assert_eq!(asked.ask(&long, room), (FULL, 0));
        assert_eq!(asked.ask(&held, 64), (0, 1));
    }
    let other = three([3, 3]).encode();
    for (number, length) in [(2, other.len() - 1), (11, other.len() + 1)] {
        let mut bytes = other.clone();
        bytes.resize(length, 0);
        assert_eq!(asked.ask_bytes(&bytes, &junk_buffers()), (number, 0));
        assert_eq!(asked.ask(&held, 64), (0, 1));
    }
    let mut short = junk_buffers();
    short.work.truncate(LEAST_WORK - 1);
    assert_eq!(asked.ask_bytes(&other, &short), (WORK, 0));
    assert_eq!(asked.ask(&held, 64), (0, 1));
    assert_eq!(asked.ask(&three([3, 3]), 64), (0, 0));
}

/// Problems of one length whose forms differ in one byte, the last or any other one.
#[test]
fn forms_that_nearly_agree_are_no_hits() {
    let of = |costs: [u32; 3]| Problem {
        ceilings: vec![u32::MAX],
        domains: vec![3],
        tables: vec![Table::new(0, &[0], &costs)],
    };
    let mut asked = Asked::new(9 * SLOT_BYTES);
    let problems = [
        of([5, 7, 9]),
        of([5, 7, 9 + (1 << 24)]),
        of([5, 7, 10]),
        of([5, 7 + (1 << 31), 9]),
        of([4, 7, 9]),
        Problem {
            ceilings: vec![u32::MAX - 1],
            ..of([5, 7, 9])
        },
    ];
    for hit in [0, 1] {
        for problem in &problems {
            assert_eq!(asked.ask(problem, 1), (0, hit), "{problem:?}");
        }
    }
}

/// All layouts of a problem are one problem, and a problem with its tables added up is another.
#[test]
fn every_layout_is_a_hit() {
    let mut rng = Rng::new(1);
    for problem in ten_problems() {
        let mut asked = Asked::new(SLOT_BYTES);
        let first = asked.ask(&problem, 64);
        assert_eq!(first.1, 0);
        for layout in layouts(&mut rng, &problem) {
            let found = asked.ask_bytes(&layout.encode(), &junk_buffers());
            assert_eq!(found, (first.0, 1), "{layout:?}");
        }
    }
    let mut twice = three([3, 3]);
    let again = twice.tables[0].clone();
    twice.tables.push(again);
    let mut sums = three([3, 3]);
    sums.tables[0].costs.iter_mut().for_each(|cost| *cost *= 2);
    let mut asked = Asked::new(3 * SLOT_BYTES);
    assert_eq!(asked.ask(&twice, 64), (0, 0));
    assert_eq!(asked.ask(&sums, 64), (0, 0));
    assert_eq!(asked.ask(&twice, 64), (0, 1));
}

/// Problems of 60,000 bytes fill the place of the form, and 64 points of four costs and 24 choices those of the answer.
#[test]
fn the_largest_problems_and_answers_fit_a_slot() {
    let mut wide = stairs_of(64);
    wide.ceilings.extend([1, 1]);
    wide.domains.resize(24, 1);
    let mut asked = Asked::new(2 * SLOT_BYTES);
    for hit in [0, 1] {
        assert_eq!(asked.ask(&brimful(), 64), (0, hit));
        assert_eq!(asked.ask(&wide, 64), (0, hit));
    }
    assert_eq!(form_of(&brimful()).len(), MAX_BYTES);
    assert_eq!(
        frontier_of(&wide.encode()).map(|list| list.len()),
        Ok(MAX_POINTS)
    );
}

/// Problems of the night, solved by the plain call and through a store, in another layout the second time.
#[test]
fn problems_of_a_night() {
    let mut rng = Rng::new(2);
    let mut run = Run::new(lent::solve_problem, 32 * SLOT_BYTES);
    let lent = junk_buffers();
    let night = nightly();
    let smaller: Vec<_> = night
        .iter()
        .filter(|s| s.problem.variables() < 14)
        .collect();
    let mut answered = 0;
    for stored in smaller.chunks(32).take(3) {
        for hit in [0, 1] {
            for stored in stored {
                let layout = random_layout(&mut rng, &stored.problem).encode();
                let found = run.compare(&layout, &lent, call);
                let found = found.unwrap_or_else(|difference| panic!("{difference}"));
                let (list, size) = stored.frontier();
                if size <= MAX_POINTS {
                    assert_eq!(
                        found.answer,
                        Answer::accepted(list.len()),
                        "{}",
                        stored.name
                    );
                    assert_eq!(found.hit, hit, "{}", stored.name);
                    answered += 1;
                }
            }
        }
    }
    assert!(answered > 100, "{answered}");
}

// ---- refusals and lengths

/// Asserts that a call is refused with this number and leaves all it was lent as it was.
fn assert_untouched(problem: &[u8], lent: &Buffers, store: usize, due: Refusal) {
    let junk = any_store(&mut Rng::new(store as u64), problem)[0] | 1;
    let mut left = lent.clone();
    let mut bytes = vec![junk; store];
    let found = left.lend_cached(call, problem, &mut bytes);
    assert_eq!(found, due.into(), "store of {store}");
    assert_eq!(left, *lent);
    assert!(bytes.iter().all(|&byte| byte == junk));
    assert!(compare_cached(brute::solve_problem, problem, lent, &bytes, call).is_ok());
}

#[test]
fn a_store_under_a_slot_is_refused_and_nothing_is_written() {
    let bytes = three([3, 3]).encode();
    let lent = junk_buffers();
    for store in [0, 1, 1_000, SLOT_BYTES - 1] {
        assert_untouched(&bytes, &lent, store, Refusal::Store);
        // Before 15.
        let mut none = lent.clone();
        none.costs.clear();
        assert_untouched(&bytes, &none, store, Refusal::Store);
        // After 12.
        let mut short = lent.clone();
        short.work.truncate(LEAST_WORK - 1);
        assert_untouched(&bytes, &short, store, Refusal::Work);
    }
    let mut short = lent.clone();
    short.work.clear();
    assert_untouched(&bytes, &short, SLOT_BYTES, Refusal::Work);
}

/// Numbers 1 to 11 come before all others, with the places of the plain call.
#[test]
fn refused_problems_are_told_first() {
    let bytes = turned().encode();
    let mut met = BTreeSet::new();
    let mut ask = |problem: &[u8]| {
        let Err(due) = read_problem(problem) else {
            return;
        };
        met.insert(due.number());
        for work in [LEAST_WORK - 1, LEAST_WORK] {
            let lent = junk(&mut Rng::new(3), 3, 3, work);
            for store in [SLOT_BYTES - 1, SLOT_BYTES] {
                assert_untouched(problem, &lent, store, due);
            }
        }
    };
    for place in 0..bytes.len() {
        for value in [0, 1, 5, 9, 25, 255] {
            let mut changed = bytes.clone();
            changed[place] = value;
            ask(&changed);
        }
    }
    ask(&bytes[..bytes.len() - 1]);
    ask(&[&bytes[..], &[0]].concat());
    ask(&[7; MAX_BYTES + 1]);
    assert_eq!(met, (1..=11).collect());
}

/// Slots are counted in whole, and what is behind them stays as it is.
#[test]
fn stores_of_lengths_around_slots() {
    let letters = "ABABCBC";
    let two = hits(2 * SLOT_BYTES, letters);
    assert_eq!(two, "ABBC");
    for (store, due) in [
        (SLOT_BYTES, ""),
        (SLOT_BYTES + 1, ""),
        (2 * SLOT_BYTES - 1, ""),
        (2 * SLOT_BYTES, &two[..]),
        (2 * SLOT_BYTES + 1, &two),
        (3 * SLOT_BYTES - 1, &two),
        (3 * SLOT_BYTES, "ABBC"),
    ] {
        assert_eq!(hits(store, letters), due, "{store}");
    }
    assert_eq!(slots_in(MAX_SLOTS * SLOT_BYTES + 1), 32);
    assert_eq!(slots_in(99 * SLOT_BYTES), 32);
    assert_runs(1, 2 * SLOT_BYTES - 1);
}

/// What a slot holds, written down here by hand.
#[test]
fn a_slot_has_its_parts_where_the_reference_says() {
    let mut store = vec![0; 2 * SLOT_BYTES];
    let mut lent = junk_buffers();
    let found = lent.lend_cached(call, &turned().encode(), &mut store);
    assert_eq!((found.answer, found.hit), (Answer::accepted(4), 0));
    let mut due = vec![0; 2 * SLOT_BYTES];
    let form = [
        &b"HD\x02\x02\x02\0\x09\0\0\0\x09\0\0\0DO\x02DO\x03"[..],
        b"CF\0\x02\0\x01\x04\0\0\0\x03\0\0\0\x02\0\0\0\x01\0\0\0\x05\0\0\0\0\0\0\0",
        b"CF\x01\x02\0\x01\0\0\0\0\x03\0\0\0\x01\0\0\0\x02\0\0\0\x06\0\0\0\x05\0\0\0",
    ]
    .concat();
    due[..80].copy_from_slice(&form);
    due[60_000..60_032].copy_from_slice(
        b"\0\0\0\0\x05\0\0\0\x01\0\0\0\x02\0\0\0\x02\0\0\0\x01\0\0\0\x04\0\0\0\0\0\0\0",
    );
    due[61_024..61_032].copy_from_slice(&[1, 2, 1, 0, 0, 2, 0, 0]);
    due[62_560..62_572].copy_from_slice(b"\x50\0\0\0\x04\0\0\0\x01\0\0\0");
    assert!(store == due);
    // The second one goes to slot 1, and then slot 0 is next again.
    lent.lend_cached(call, &lone(8, 1).encode(), &mut store);
    let second = &mut due[SLOT_BYTES..];
    second[..13].copy_from_slice(b"HD\x01\x01\0\0\x01\0\0\0DO\x08");
    second[62_560..62_568].copy_from_slice(b"\x0d\0\0\0\x01\0\0\0");
    due[62_568] = 0;
    assert!(store == due);
}

// ---- any memory

/// The mixed cases with these seeds on any memory; how often each number came with a hit or without.
fn compare_mixed(seeds: Range<u64>, call: impl Fn(&Mixed) -> Result<CachedAnswer, String>) -> Met {
    let mut met = Met::new();
    for case in seeds.map(Mixed::new) {
        let found = call(&case).unwrap_or_else(|difference| panic!("{difference}"));
        *met.entry((found.answer.number, found.hit)).or_default() += 1;
    }
    met
}

fn assert_all_met(met: &Met) {
    let refused = (1..=11).chain([WORK, STORE]).map(|number| (number, 0));
    for due in refused.chain([(0, 0), (0, 1), (FULL, 0), (FULL, 1)]) {
        assert!(met.contains_key(&due), "{due:?} is missing in {met:?}");
    }
}

#[test]
fn mixed_cases_0_to_6_000() {
    assert_all_met(&compare_mixed(0..6_000, |case| case.compare_cached(call)));
}

#[test]
fn mixed_cases_6_000_to_12_000() {
    assert_all_met(&compare_mixed(6_000..12_000, |case| {
        case.compare_cached(call)
    }));
}

/// Every buffer between closed pages, against the upper one and against the lower, on stores that hold anything.
#[test]
fn nothing_is_touched_beside_a_buffer() {
    at_both_ends(|guarded| {
        compare_seeds(30_000..31_500, |case| {
            let compared = case.compare_cached(|problem, costs, choices, work, store| {
                let mut guarded = guarded.borrow_mut();
                guarded.cached(problem, costs, choices, work, store)
            });
            compared.map(|_| ())
        });
    });
}

/// Whole runs between closed pages with the longest stores, full of junk or cleared.
#[test]
fn nothing_is_touched_beside_a_long_store() {
    let guarded = RefCell::new(Guarded::new().expect("memory"));
    let mut rng = Rng::new(12);
    let problems = pool(&mut rng, 40);
    for store in [MAX_SLOTS * SLOT_BYTES, MAX_SLOTS * SLOT_BYTES + 1] {
        for (end, fill) in [(End::Upper, 0), (End::Lower, 0xff), (End::Upper, 0x1f)] {
            guarded.borrow_mut().end = end;
            let mut store = vec![fill; store];
            for problem in &problems {
                let (bytes, lent) = (problem.encode(), junk_buffers());
                let call = |problem: &[u8],
                            costs: &mut [u32],
                            choices: &mut [u8],
                            work: &mut [u32],
                            store: &mut [u8]| {
                    let mut guarded = guarded.borrow_mut();
                    guarded.cached(problem, costs, choices, work, store)
                };
                let left = compare_cached(brute::solve_problem, &bytes, &lent, &store, call);
                store = left
                    .unwrap_or_else(|difference| panic!("{difference}"))
                    .store;
            }
        }
    }
    assert_eq!(guarded.borrow_mut().take_fault(), None);
}

/// Every next number around the slots, and every count around 64, in a store of three slots.
#[test]
fn numbers_that_no_store_holds_are_taken_as_told() {
    let (held, other) = (three([3, 3]).encode(), turned().encode());
    let lent = junk_buffers();
    let compare = |problem: &[u8], store: &[u8]| {
        let left = compare_cached(brute::solve_problem, problem, &lent, store, call);
        left.unwrap_or_else(|difference| panic!("{difference}"))
    };
    let all = [0, 1, 2, 3, 4, 5, 31, 32, 63, 64, 65, 66, 255, 256, 1 << 16];
    for number in all.into_iter().chain([(1 << 31) - 1, 0xffff_ffff]) {
        let mut store = vec![0x77; 3 * SLOT_BYTES];
        put_number(&mut store, NEXT_AT, number);
        let mut left = compare(&held, &store);
        let written = if number < 3 { number } else { 0 };
        assert!(slot(&mut left.store, written).starts_with(&held));
        let mut filled = left.store;
        put_number(slot(&mut filled, written), COUNT_AT, number);
        let again = compare(&held, &filled);
        let count = number.min(MAX_POINTS) as u32;
        let answer = Answer {
            count,
            ..Answer::accepted(0)
        };
        assert_eq!(again.found, CachedAnswer { answer, hit: 1 });
        assert!(again.store == filled);
        // A length that is too long for a form, and one that is right by chance.
        for length in [0, 1, other.len(), MAX_BYTES + 1, 0xffff_ffff] {
            put_number(slot(&mut filled, 1), LENGTH_AT, length);
            compare(&other, &filled);
        }
    }
    // Of two slots that hold the form the first counts.
    let mut store = vec![0; 3 * SLOT_BYTES];
    for (number, cost) in [(1, 8), (2, 9)] {
        let slot = slot(&mut store, number);
        slot[..held.len()].copy_from_slice(&held);
        put_number(slot, LENGTH_AT, held.len());
        put_number(slot, COUNT_AT, 1);
        put_number(slot, COSTS_AT, cost);
        slot[CHOICES_AT] = 7;
    }
    let left = compare(&held, &store);
    assert_eq!((left.lent.costs[0], left.lent.choices[0]), (8, 7));
}

// ---- from Rust

#[test]
fn a_store_of_the_package() {
    let bytes = three([3, 3]).encode();
    let mut chooser = Chooser::new();
    let refused = chooser.solve_cached(&bytes, &mut Store::new(0));
    assert_eq!(refused, Err(Refusal::Store));
    assert_eq!(Store::new(40).slots(), MAX_SLOTS);
    let mut store = Store::new(2);
    assert_eq!((store.slots(), store.as_bytes().len()), (2, 126_000));
    let due = chooser.solve(&bytes).map(|list| list.costs().to_vec());
    let mut small = Chooser::with_room(2);
    assert_eq!(
        small.solve_cached(&bytes, &mut store),
        Err(Refusal::Full),
        "and stored"
    );
    let found = chooser.solve_cached(&bytes, &mut store).expect("an answer");
    assert!(found.hit);
    assert_eq!(Ok(found.frontier.costs().to_vec()), due);
    assert_eq!(small.solve_cached(&bytes, &mut store), Err(Refusal::Full));
    let mut later = Store::from_bytes(store.as_bytes().to_vec());
    assert_eq!(later, store);
    let hit = |chooser: &mut Chooser, store: &mut Store| {
        chooser.solve_cached(&bytes, store).map(|found| found.hit)
    };
    assert_eq!(hit(&mut chooser, &mut later), Ok(true));
    later.clear();
    assert_eq!(later, Store::new(2));
    assert_eq!(hit(&mut chooser, &mut later), Ok(false));
    // Bytes that never were a store, of any length.
    let mut junk = Store::from_bytes(vec![0x5c; 2 * SLOT_BYTES - 1]);
    assert_eq!(junk.slots(), 1);
    assert_eq!(hit(&mut chooser, &mut junk), Ok(false));
    assert_eq!(hit(&mut chooser, &mut junk), Ok(true));
    assert_eq!(junk.into_bytes().len(), 2 * SLOT_BYTES - 1);
}

/// A thread with little more stack than the header says.
#[test]
fn the_stack_that_the_header_names_does() {
    let thread = std::thread::Builder::new().stack_size(176 * 1024);
    let solved = thread.spawn(|| {
        let bytes = brimful().encode();
        let (mut chooser, mut store) = (Chooser::new(), Store::new(1));
        [(); 2].map(|()| {
            chooser
                .solve_cached(&bytes, &mut store)
                .map(|found| found.hit)
        })
    });
    let hits = solved.expect("a thread").join();
    assert_eq!(
        hits.expect("it has stack enough"),
        [Ok(false), Ok(true)],
        "the second is a hit"
    );
}
