//! The text call of the static library against the independent converter: problems of every shape and
//! refused ones, buffers of every length that matters between fences and between closed pages.

use std::collections::BTreeSet;
use std::ops::Range;

use chooser::junk::Rng;
use frontier::lent::{self, Answer};
use frontier::limits::{
    MAX_BYTES, MAX_DOMAIN, MAX_OBJECTIVES, MAX_TABLES, MAX_VARIABLES, TEXT_LEN,
};
use frontier::refusal::{DIALECT, OUTPUT};
use frontier::{to_text, Problem, Refusal, Table, FORBIDDEN};
use testing::examples::{brimful, colours, every_arity, lone, ten_problems};
use testing::guarded::at_both_ends;
use testing::mixed::{compare_seeds, Mixed};
use testing::texts::{compare_text, fenced_call, lengths, need, JUNK};
use testing::wcsp::in_one_objective;

/// Asserts that the call answers and leaves a buffer of this length as the converter does.
fn assert_length(problem: &[u8], length: usize) -> Answer {
    let lent = vec![JUNK; length];
    assert_eq!(
        compare_text(problem, &lent, fenced_call(lent::to_text)),
        Ok(())
    );
    lent::to_text(problem, &mut lent.clone())
}

/// Asserts it for buffers of every length that matters, and gives the numbers that were met.
fn assert_lengths(rng: &mut Rng, problem: &[u8]) -> [u8; 6] {
    lengths(rng, need(problem)).map(|length| assert_length(problem, length).number)
}

/// The inputs of the mixed cases with these seeds, each with six buffers; the numbers that were met.
fn compare_mixed(seeds: Range<u64>) -> BTreeSet<u8> {
    let mut met = BTreeSet::new();
    for case in seeds.map(Mixed::new) {
        let mut rng = case.text_rng();
        for problem in case.text_inputs() {
            met.extend(assert_lengths(&mut rng, &problem));
        }
    }
    met
}

/// All numbers that the call can give.
fn numbers() -> BTreeSet<u8> {
    (0..=11).chain([DIALECT, OUTPUT]).collect()
}

// 20,000 mixed cases are over 50,000 inputs, with six calls each, in parts that run side by side.

#[test]
fn mixed_cases_0_to_10_000() {
    assert_eq!(compare_mixed(0..10_000), numbers());
}

#[test]
fn mixed_cases_10_000_to_20_000() {
    assert_eq!(compare_mixed(10_000..20_000), numbers());
}

/// Every buffer between closed pages, against the upper one and against the lower.
#[test]
fn nothing_is_touched_beside_a_buffer() {
    at_both_ends(|guarded| {
        let call = |problem: &[u8], text: &mut [u8]| guarded.borrow_mut().text(problem, text);
        compare_seeds(30_000..31_500, |case| {
            case.compare_lengths(case.text_inputs(), need, |problem, lent| {
                compare_text(problem, lent, call)
            })
        });
    });
}

/// As many bytes, variables, values and tables as there may be, and the greatest numbers everywhere.
fn at_the_limits() -> Vec<Problem> {
    let mut full = in_one_objective(&brimful());
    full.ceilings = vec![FORBIDDEN - 1];
    full.tables
        .iter_mut()
        .for_each(|table| table.costs.fill(FORBIDDEN));
    let scope = [23, 0, 10];
    let entries = [FORBIDDEN].repeat(MAX_DOMAIN.pow(3));
    let mut wide = Problem {
        ceilings: vec![0],
        domains: vec![MAX_DOMAIN as u8; MAX_VARIABLES],
        tables: vec![Table::new(0, &scope, &entries)],
    };
    let few = Table::new(0, &[23], &[0; MAX_DOMAIN]);
    wide.tables.resize(MAX_TABLES, few);
    let mut zeros = full.clone();
    zeros
        .tables
        .iter_mut()
        .for_each(|table| table.costs.fill(0));
    vec![full, wide, zeros, lone(1, 0), lone(8, FORBIDDEN - 1)]
}

#[test]
fn problems_at_the_limits_are_written() {
    let mut rng = Rng::new(3);
    for problem in at_the_limits() {
        let bytes = problem.encode();
        assert!(bytes.len() <= MAX_BYTES);
        let met = assert_lengths(&mut rng, &bytes);
        assert_eq!(met, [OUTPUT, OUTPUT, OUTPUT, 0, 0, 0]);
        // As many bytes as the header names, and as the package lends, do.
        assert_eq!(assert_length(&bytes, TEXT_LEN).number, 0);
        assert_eq!(to_text(&bytes).map(|text| text.len()), Ok(need(&bytes)));
    }
    let longest = need(&at_the_limits()[0].encode());
    assert!((254_000..=TEXT_LEN).contains(&longest), "{longest}");
}

#[test]
fn every_length_up_to_what_is_needed() {
    for problem in ten_problems() {
        let bytes = in_one_objective(&problem).encode();
        let need = need(&bytes);
        for length in 0..=need + 2 {
            let answer = assert_length(&bytes, length);
            let due = if length < need { OUTPUT } else { 0 };
            assert_eq!(answer.number, due, "{length} of {need}");
        }
    }
}

/// With more than one objective there is no text, however long the buffer is, and nothing is written.
#[test]
fn more_objectives_are_refused_before_the_buffer() {
    for objectives in 1..=MAX_OBJECTIVES {
        let problem = Problem {
            ceilings: vec![9; objectives],
            domains: vec![2],
            tables: vec![Table::new(0, &[0], &[0, 4])],
        };
        for length in [0, 1, 30, TEXT_LEN] {
            let answer = assert_length(&problem.encode(), length);
            match objectives {
                1 => assert_eq!(answer.number, if length < 30 { OUTPUT } else { 0 }),
                _ => assert_eq!(answer, Refusal::Dialect.into()),
            }
        }
    }
    assert_eq!(to_text(&colours([9, 9]).encode()), Err(Refusal::Dialect));
}

/// The greatest ceiling has no upper bound above it, with entries and without.
#[test]
fn the_greatest_ceiling_is_refused_before_the_buffer() {
    for tables in [vec![], vec![Table::new(0, &[0], &[0, FORBIDDEN])]] {
        for ceiling in [0, 1, u32::MAX - 2, u32::MAX - 1, u32::MAX] {
            let problem = Problem {
                ceilings: vec![ceiling],
                domains: vec![2],
                tables: tables.clone(),
            };
            for length in [0, TEXT_LEN] {
                let number = assert_length(&problem.encode(), length).number;
                let due = match (ceiling, length) {
                    (u32::MAX, _) => DIALECT,
                    (_, 0) => OUTPUT,
                    _ => 0,
                };
                assert_eq!(number, due, "{ceiling}, {length} bytes");
            }
        }
    }
}

/// Numbers 1 to 11 with their places, whatever the objectives and the buffer are.
#[test]
fn refused_problems_are_told_first() {
    let bytes = in_one_objective(&every_arity()).encode();
    let text = need(&bytes);
    let mut met = BTreeSet::new();
    for place in 0..bytes.len() {
        for value in 0..=u8::MAX {
            let mut changed = bytes.clone();
            changed[place] = value;
            let answer = assert_length(&changed, if value % 2 == 0 { 0 } else { 2 * text });
            met.insert(answer.number);
        }
        let answer = assert_length(&bytes[..place], text);
        assert_eq!(answer.number, Refusal::CutShort(0).number());
    }
    assert_length(&[7; MAX_BYTES + 1], text);
    // One byte more is 1, and one byte alone does not give a second objective its ceiling.
    let due: BTreeSet<u8> = (2..=11).chain([0, OUTPUT]).collect();
    assert_eq!(met, due);
}

#[test]
fn empty_slices() {
    let due = Refusal::CutShort(0).into();
    assert_eq!(lent::to_text(&[], &mut []), due);
    assert_eq!(lent::to_text(&Vec::new(), &mut Vec::new()), due);
    let bytes = lone(8, 1).encode();
    assert_eq!(lent::to_text(&bytes, &mut []), Refusal::Output.into());
}
