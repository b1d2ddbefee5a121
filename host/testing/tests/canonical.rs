//! The canonical call of the static library against the independent one: problems in every layout and refused ones,
//! buffers of every length that matters between fences and between closed pages; and what a form promises: the same
//! for all layouts, its own form, and the frontier of the problem.

use std::collections::{BTreeMap, BTreeSet};
use std::ops::Range;

use chooser::digest::fnv_1a;
use chooser::junk::{junk_buffers, Rng};
use frontier::lent::{self, bound_prefix, solve_problem, Answer, Keyed};
use frontier::limits::{LEAST_WORK, MAX_BYTES, MAX_TABLES, MAX_VARIABLES};
use frontier::refusal::OUTPUT;
use frontier::{canonical, Canonical, Problem, Refusal, Table};
use testing::canonical::{form_of, key_of};
use testing::examples::{brimful, every_arity, lone, ten_problems, turned};
use testing::guarded::at_both_ends;
use testing::layouts::{compare_canonical, form_need, layouts, random_layout, reversed};
use testing::mixed::{compare_seeds, Mixed};
use testing::night::{chosen_text, read_bytes, read_night};
use testing::owned::{frontier_by, frontier_of};
use testing::places::data;
use testing::random::{random_problem, Shape};
use testing::reading::read_problem;
use testing::texts::{fenced_call, lengths, JUNK};
use testing::turned::falling;

/// Asserts that the call answers and leaves a buffer of this length as the independent one does.
fn assert_length(problem: &[u8], length: usize) -> Keyed {
    let lent = vec![JUNK; length];
    assert_eq!(
        compare_canonical(problem, &lent, fenced_call(lent::canonical)),
        Ok(())
    );
    lent::canonical(problem, &mut lent.clone())
}

/// Asserts it for buffers of every length that matters, and gives the numbers that were met.
fn assert_lengths(rng: &mut Rng, problem: &[u8]) -> [u8; 6] {
    lengths(rng, form_need(problem)).map(|length| assert_length(problem, length).answer.number)
}

/// The form and the key of a problem that is not refused.
fn formed(problem: &Problem) -> Canonical {
    canonical(&problem.encode()).expect("a valid problem")
}

// ---- keys

/// Values of the list that the authors of FNV have published, by text.
const PUBLISHED: [(&str, u64); 12] = [
    ("", 0xcbf2_9ce4_8422_2325),
    ("a", 0xaf63_dc4c_8601_ec8c),
    ("b", 0xaf63_df4c_8601_f1a5),
    ("c", 0xaf63_de4c_8601_eff2),
    ("d", 0xaf63_d94c_8601_e773),
    ("e", 0xaf63_d84c_8601_e5c0),
    ("f", 0xaf63_db4c_8601_ead9),
    ("fo", 0x0898_5907_b541_d342),
    ("foo", 0xdcb2_7518_fed9_d577),
    ("foob", 0xdd12_0e79_0c25_12af),
    ("fooba", 0xcac1_65af_a2fe_f40a),
    ("foobar", 0x8594_4171_f739_67e8),
];

#[test]
fn keys_are_the_published_ones() {
    for (text, due) in PUBLISHED {
        assert_eq!(key_of(text.as_bytes()), due, "{text}");
    }
}

/// Forms that are written down here to the byte, with keys that were computed elsewhere.
#[test]
fn known_forms_have_known_keys() {
    let pieces: [(&Problem, &[&[u8]], u64); 3] = [
        (
            &lone(1, 1),
            &[b"HD\x01\x01\0\0\x01\0\0\0", b"DO\x01"],
            0xe4e7_341c_87e2_47a2,
        ),
        (
            &turned(),
            &[
                b"HD\x02\x02\x02\0\x09\0\0\0\x09\0\0\0",
                b"DO\x02DO\x03",
                b"CF\0\x02\0\x01\x04\0\0\0\x03\0\0\0\x02\0\0\0\x01\0\0\0\x05\0\0\0\0\0\0\0",
                b"CF\x01\x02\0\x01\0\0\0\0\x03\0\0\0\x01\0\0\0\x02\0\0\0\x06\0\0\0\x05\0\0\0",
            ],
            0x93a2_f352_c61e_2efd,
        ),
        (
            &charges([256, 1, 2, 1]),
            &[
                b"HD\x01\x01\x04\0\xff\xff\xff\xff",
                b"DO\x01",
                b"CF\0\0\0\x01\0\0",
                b"CF\0\0\x01\0\0\0",
                b"CF\0\0\x01\0\0\0",
                b"CF\0\0\x02\0\0\0",
            ],
            0x5f2f_d1f9_3e73_d724,
        ),
    ];
    for (problem, pieces, key) in pieces {
        let form = pieces.concat();
        assert_eq!(form_of(problem), form);
        assert_eq!(formed(problem), Canonical { form, key });
    }
}

/// A problem with one choice, and these charges on it.
fn charges<const COUNT: usize>(entries: [u32; COUNT]) -> Problem {
    Problem {
        ceilings: vec![u32::MAX],
        domains: vec![1],
        tables: entries.map(|entry| Table::new(0, &[], &[entry])).to_vec(),
    }
}

/// The key that is told is FNV-1a of the form that is written, by two implementations that share nothing.
#[test]
fn the_key_is_that_of_the_form_that_is_written() {
    let mut rng = Rng::new(4);
    for case in 0..3_000 {
        let shape = [Shape::small(), Shape::many_variables(), Shape::wide()];
        let problem = random_problem(&mut rng, &shape[case % 3]);
        let Canonical { form, key } = formed(&problem);
        assert_eq!(key, key_of(&form), "case {case}");
        assert_eq!(key, fnv_1a(form.iter().copied()), "case {case}");
    }
}

/// Problems that differ in more than their layout have keys of their own, as far as random ones show.
#[test]
fn other_problems_have_other_forms_and_keys() {
    let mut rng = Rng::new(5);
    let mut met = BTreeMap::new();
    for _ in 0..5_000 {
        let problem = random_problem(&mut rng, &Shape::small());
        let Canonical { form, key } = formed(&problem);
        let first = met.entry(key).or_insert_with(|| form.clone());
        assert!(*first == form, "two forms have the key {key:016x}");
    }
    assert!(met.len() > 4_000, "{} forms", met.len());
}

// ---- order

/// Entries are compared from the lowest byte on, as they stand: 256 is before 1, and 2^24 before 2^16.
#[test]
fn the_order_is_that_of_bytes_and_not_of_numbers() {
    let numbers = [1, 0, 1 << 8, 1 << 16, 1 << 24, 257, u32::MAX, 0x00ff_ffff];
    let due = [0, 1 << 24, 1 << 16, 1 << 8, 1, 257, 0x00ff_ffff, u32::MAX];
    assert_eq!(formed(&charges(numbers)).form, charges(due).encode());
    let mut rng = Rng::new(6);
    for _ in 0..50 {
        let mut numbers = numbers;
        rng.shuffle(&mut numbers);
        assert_eq!(formed(&charges(numbers)).form, charges(due).encode());
    }
}

/// Objective, arity and scope come before the entries, in this order, and whatever the records' lengths are.
#[test]
fn fields_are_compared_in_the_order_in_which_they_stand() {
    let mut due = Problem {
        ceilings: vec![9, 9],
        domains: vec![2, 1, 3],
        tables: vec![
            Table::new(0, &[], &[u32::MAX]),
            Table::new(0, &[0], &[255, 255]),
            Table::new(0, &[1], &[9]),
            Table::new(0, &[2], &[1, 1, 1]),
            Table::new(0, &[0, 1], &[7, 7]),
            Table::new(0, &[0, 2], &[5; 6]),
            Table::new(0, &[1, 2], &[4; 3]),
            Table::new(0, &[0, 1, 2], &[3; 6]),
            Table::new(1, &[], &[0]),
            Table::new(1, &[0], &[0, 0]),
            Table::new(1, &[0], &[0, 1]),
            Table::new(1, &[0], &[1, 0]),
        ],
    };
    let form = due.encode();
    let mut rng = Rng::new(7);
    for _ in 0..100 {
        rng.shuffle(&mut due.tables);
        assert_eq!(formed(&due).form, form);
    }
}

/// What is there twice stays so, also all 256 records of a problem, and nothing is added up.
#[test]
fn repeated_records_are_kept() {
    let twice = Table::new(0, &[0, 1], &[4, 3, 2, 1, 5, 0]);
    let again = Table::new(0, &[1, 0], &[4, 1, 3, 5, 2, 0]);
    let problem = |tables: &[&Table]| Problem {
        ceilings: vec![9],
        domains: vec![2, 3],
        tables: tables.iter().map(|&table| table.clone()).collect(),
    };
    let once = formed(&problem(&[&twice]));
    let both = formed(&problem(&[&again, &twice]));
    assert_eq!(both.form, problem(&[&twice, &twice]).encode());
    assert_ne!(both.key, once.key);
    let all = problem(&[&again; MAX_TABLES]);
    assert_eq!(formed(&all).form, problem(&[&twice; MAX_TABLES]).encode());
}

/// Every order of a scope of three, over domains of different sizes.
#[test]
fn every_order_of_a_scope_is_turned() {
    let rising = Problem {
        ceilings: vec![u32::MAX],
        domains: vec![2, 5, 3, 4],
        tables: vec![Table {
            objective: 0,
            scope: vec![0, 2, 3],
            costs: (100..124).collect(),
        }],
    };
    let due = formed(&rising);
    assert_eq!(due.form, rising.encode());
    let mut met = BTreeSet::new();
    let mut rng = Rng::new(8);
    while met.len() < 6 {
        let layout = random_layout(&mut rng, &rising);
        assert_eq!(formed(&layout), due, "{:?}", layout.tables[0].scope);
        met.insert(layout.tables[0].scope.clone());
    }
}

// ---- layouts

/// How many random problems are asked in seven layouts each.
const CASES: u64 = 3_000;

/// Asserts that all layouts of a problem have one form and key, which is the independent one and its own.
fn assert_layouts(rng: &mut Rng, problem: &Problem) -> Canonical {
    let due = formed(problem);
    let form = form_of(problem);
    let key = key_of(&form);
    assert_eq!(due, Canonical { form, key }, "{problem:?}");
    for layout in layouts(rng, problem) {
        assert_eq!(formed(&layout), due, "{problem:?}\nas {layout:?}");
    }
    assert_eq!(canonical(&due.form), Ok(due.clone()), "{problem:?}");
    due
}

#[test]
fn all_layouts_have_one_form_and_key() {
    for seed in 0..CASES {
        let mut rng = Rng::new(seed);
        let shapes = [Shape::small(), Shape::many_variables(), Shape::wide()];
        let problem = random_problem(&mut rng, &shapes[seed as usize % 3]);
        assert_layouts(&mut rng, &problem);
    }
}

/// By the plain call of the library and by the brute force, both on the problem and on its form.
#[test]
fn the_form_has_the_frontier_of_the_problem() {
    let mut points = 0;
    for seed in 0..CASES {
        let mut rng = Rng::new(1_000_000 + seed);
        let problem = random_problem(&mut rng, &Shape::small());
        let layout = random_layout(&mut rng, &problem).encode();
        let Canonical { form, .. } = formed(&problem);
        let due = frontier_of(&problem.encode());
        for bytes in [&form, &layout] {
            assert_eq!(frontier_by(solve_problem, bytes), due, "{problem:?}");
            assert_eq!(frontier_of(bytes), due, "{problem:?}");
        }
        points += due.map_or(0, |list| list.len());
    }
    assert!(points > 5_000, "{points}");
}

/// Asserts that each problem of a night has one form in every layout, and that a layout's form is listed as the
/// problem is. (The scopes of the nights rise, so that only another layout has something to turn.)
fn assert_night(folder: &str) {
    let (mut rng, mut lent, mut keys) = (Rng::new(9), junk_buffers(), BTreeSet::new());
    for stored in read_night(&data(folder)).expect("a folder of the repository") {
        let bytes = read_bytes(&stored.path).expect("a file that was listed");
        let problem = read_problem(&bytes).expect("a valid problem").problem;
        let due = assert_layouts(&mut rng, &problem);
        assert_eq!(canonical(&bytes), Ok(due.clone()), "{}", stored.name);
        let layout = random_layout(&mut rng, &problem);
        let text = chosen_text(&mut lent, &formed(&layout).form);
        assert_eq!(Some(text), stored.expected, "{}", stored.name);
        keys.insert(due.key);
    }
    assert_eq!(keys.len(), 380, "{folder}");
}

#[test]
fn a_night_has_its_forms() {
    assert_night("nightly");
}

#[test]
fn night_101_has_its_forms() {
    assert_night("night101");
}

#[test]
fn night_102_has_its_forms() {
    assert_night("night102");
}

// ---- buffers and refusals

/// The inputs of the mixed cases with these seeds, each with six buffers; the numbers that were met.
fn compare_mixed(seeds: Range<u64>) -> BTreeSet<u8> {
    let mut met = BTreeSet::new();
    for case in seeds.map(Mixed::new) {
        let mut rng = case.text_rng();
        for problem in case.form_inputs() {
            met.extend(assert_lengths(&mut rng, &problem));
        }
    }
    met
}

/// All numbers that the call can give.
fn numbers() -> BTreeSet<u8> {
    (0..=11).chain([OUTPUT]).collect()
}

#[test]
fn mixed_cases_0_to_5_000() {
    assert_eq!(compare_mixed(0..5_000), numbers());
}

#[test]
fn mixed_cases_5_000_to_10_000() {
    assert_eq!(compare_mixed(5_000..10_000), numbers());
}

/// Every buffer between closed pages, against the upper one and against the lower.
#[test]
fn nothing_is_touched_beside_a_buffer() {
    at_both_ends(|guarded| {
        let call = |problem: &[u8], form: &mut [u8]| guarded.borrow_mut().canonical(problem, form);
        compare_seeds(30_000..31_500, |case| {
            case.compare_lengths(case.form_inputs(), form_need, |problem, lent| {
                compare_canonical(problem, lent, call)
            })
        });
    });
}

/// As many bytes, variables, values and records as there may be.
fn at_the_limits() -> Vec<Problem> {
    let mut rng = Rng::new(10);
    let mut full = brimful();
    for table in &mut full.tables {
        table.costs.fill_with(|| rng.bits() as u32);
    }
    let over = |scope: &[u8], entries: usize| {
        let mut rng = Rng::new(11);
        let mut many = Problem {
            ceilings: vec![u32::MAX; 4],
            domains: vec![2; MAX_VARIABLES],
            tables: vec![Table::new(3, scope, &vec![0; entries]); MAX_TABLES],
        };
        for table in &mut many.tables {
            table.costs.fill_with(|| rng.byte_below(3).into());
        }
        many
    };
    vec![
        reversed(falling(&full)),
        full,
        over(&[23, 0, 10], 8),
        over(&[23, 0], 4),
        over(&[23], 2),
        over(&[], 1),
        lone(1, 0),
        lone(8, u32::MAX),
    ]
}

#[test]
fn problems_at_the_limits_have_forms() {
    let mut rng = Rng::new(3);
    for problem in at_the_limits() {
        let bytes = problem.encode();
        assert!(bytes.len() <= MAX_BYTES);
        let met = assert_lengths(&mut rng, &bytes);
        assert_eq!(met, [OUTPUT, OUTPUT, OUTPUT, 0, 0, 0]);
        // As many bytes as the header names do.
        assert_eq!(assert_length(&bytes, MAX_BYTES).answer.number, 0);
        assert_layouts(&mut rng, &problem);
    }
    assert_eq!(at_the_limits()[0].encode().len(), MAX_BYTES);
}

#[test]
fn every_length_up_to_what_is_needed() {
    for problem in ten_problems() {
        let bytes = reversed(falling(&problem)).encode();
        for length in 0..=bytes.len() + 2 {
            let found = assert_length(&bytes, length);
            if length < bytes.len() {
                assert_eq!(found, Refusal::Output.into(), "{length}");
            } else {
                assert_eq!(found.answer, Answer::accepted(bytes.len()));
                assert_eq!(found.key, formed(&problem).key);
            }
        }
    }
}

/// Numbers 1 to 11 with their places, as the plain call and the bound call give them, whatever the buffer is.
#[test]
fn refused_problems_are_told_first() {
    let bytes = falling(&every_arity()).encode();
    let mut met = BTreeSet::new();
    let mut ask = |problem: &[u8], length: usize| {
        let found = assert_length(problem, length);
        let read = bound_prefix(problem, &[]);
        if read.number > 0 {
            let due = Answer {
                number: read.number,
                place: read.place,
                count: 0,
            };
            assert_eq!(
                found,
                Keyed {
                    answer: due,
                    key: 0
                }
            );
            let mut work = vec![0; LEAST_WORK];
            assert_eq!(solve_problem(problem, &mut [], &mut [], &mut work), due);
        }
        met.insert(found.answer.number);
    };
    for place in 0..bytes.len() {
        for value in 0..=u8::MAX {
            let mut changed = bytes.clone();
            changed[place] = value;
            ask(&changed, if value % 2 == 0 { 0 } else { bytes.len() + 9 });
        }
        ask(&bytes[..place], bytes.len());
    }
    ask(&[7; MAX_BYTES + 1], 0);
    ask(&[7; MAX_BYTES + 1], MAX_BYTES + 1);
    assert_eq!(met, numbers());
}

#[test]
fn empty_slices() {
    let due = Refusal::CutShort(0).into();
    assert_eq!(lent::canonical(&[], &mut []), due);
    assert_eq!(lent::canonical(&Vec::new(), &mut Vec::new()), due);
    assert_eq!(canonical(&[]), Err(Refusal::CutShort(0)));
    assert_eq!(canonical(&[7; MAX_BYTES + 1]), Err(Refusal::Oversize));
    let bytes = lone(8, 1).encode();
    assert_eq!(lent::canonical(&bytes, &mut []), Refusal::Output.into());
}

/// A thread with little more stack than the header says.
#[test]
fn the_stack_that_the_header_names_does() {
    let largest = at_the_limits().swap_remove(0);
    let due = formed(&largest);
    let bytes = largest.encode();
    let thread = std::thread::Builder::new().stack_size(96 * 1024);
    let found = thread.spawn(move || canonical(&bytes)).expect("a thread");
    assert_eq!(found.join().expect("it has stack enough"), Ok(due));
}
