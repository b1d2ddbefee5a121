//! The reading call of the static library against the independent converter: texts in every layout, damaged ones
//! and those far outside the limits; buffers of every length that matters, between fences and between closed
//! pages; there and back; and what choices cost by a text and by its problem.
use std::collections::BTreeMap;
use std::ops::Range;
use std::thread;

use chooser::junk::Rng;
use frontier::lent;
use frontier::limits::{MAX_BYTES, MAX_TABLES, TEXT_LEN};
use frontier::refusal::{DIALECT, OUTPUT, TEXT};
use frontier::{from_text, to_text, Problem, Refusal, Table};
use testing::brute::bound_prefix;
use testing::checker::all_choices;
use testing::examples::{every_arity, ten_problems};
use testing::guard::{End, Pages};
use testing::guarded::at_both_ends;
use testing::mixed::Mixed;
use testing::random::{random_problem, Shape};
use testing::read_texts::{compare_read, generated, read_need};
use testing::said::Said;
use testing::texts::{allowed_cost, back, draw_ends, fenced_call, lengths, JUNK};
use testing::wcsp::in_one_objective;

/// Asserts that the call answers and leaves a buffer of this length as the converter does; the number.
fn assert_length(text: &[u8], length: usize) -> u8 {
    let lent = vec![JUNK; length];
    assert_eq!(
        compare_read(text, &lent, fenced_call(lent::from_text)),
        Ok(())
    );
    lent::from_text(text, &mut lent.clone()).number
}

/// Asserts it for a text with one of the lengths that matter, and with a buffer that always suffices; the
/// numbers.
fn assert_text(rng: &mut Rng, text: &[u8]) -> [u8; 2] {
    let length = lengths(rng, read_need(text))[rng.below(6)];
    [length, MAX_BYTES].map(|length| assert_length(text, length))
}

/// The generated texts with these seeds: how often each number was met.
fn compare_generated(seeds: Range<u64>) -> BTreeMap<u8, usize> {
    let mut met = BTreeMap::new();
    for seed in seeds {
        let rng = &mut Rng::new(seed);
        let text = generated(rng);
        for number in assert_text(rng, &text) {
            *met.entry(number).or_default() += 1;
        }
    }
    met
}

/// Asserts that all numbers were met, and often.
fn assert_often(met: BTreeMap<u8, usize>) {
    assert_eq!(
        met.keys().collect::<Vec<_>>(),
        [&0, &TEXT, &DIALECT, &OUTPUT]
    );
    assert!(met.values().all(|&times| times > 1_000), "{met:?}");
}

// 120,000 texts, in parts that run side by side.

#[test]
fn generated_texts_0_to_60_000() {
    assert_often(compare_generated(0..60_000));
}

#[test]
fn generated_texts_60_000_to_120_000() {
    assert_often(compare_generated(60_000..120_000));
}

/// The words of a text with a line feed behind each.
fn lines(text: &str) -> String {
    text.split_ascii_whitespace()
        .map(|word| format!("{word}\n"))
        .collect()
}

/// Asserts that the library, and the converter, answer a text so: with a number of refusal, or with 0.
fn assert_number(number: u8, name: &str, text: &str) {
    for text in [text, &lines(text)] {
        assert_eq!(assert_length(text.as_bytes(), MAX_BYTES), number, "{name}");
        // A buffer of no length is told last.
        let due = if number == 0 { OUTPUT } else { number };
        assert_eq!(assert_length(text.as_bytes(), 0), due, "{name}");
    }
}

/// A text over one variable of two values, with the functions that are named.
fn over_one(functions: &str) -> String {
    format!("P 1 2 1 9\n2\n{functions}\n")
}

/// Texts that are 17 by their head, each with its name.
const NO_HEADS: [(&str, &str); 23] = [
    ("nothing", ""),
    ("white space alone", " \t\r\n\x0b\x0c"),
    ("a name alone", "P"),
    ("no largest domain", "P 1"),
    ("no number of functions", "P 1 1"),
    ("no bound", "P 1 1 0"),
    ("no domain size", "P 1 1 0 5"),
    ("a domain size too few", "P 2 1 0 5 1"),
    ("a word for a number of variables", "P x 1 0 5 1"),
    ("a word for a largest domain", "P 1 x 0 5 1"),
    ("a word for a number of functions", "P 1 1 x 5 1"),
    ("a word for a bound", "P 1 1 0 x 1"),
    ("a word for a domain size", "P 1 1 0 5 x"),
    ("a negative number of variables", "P -1 1 0 5 1"),
    ("a negative largest domain", "P 1 -1 0 5 1"),
    ("a negative number of functions", "P 1 1 -1 5 1"),
    ("a largest domain above all", "P 1 2 0 5 1"),
    ("a largest domain below one", "P 2 1 0 5 1 2"),
    ("a largest domain of no variables", "P 0 1 0 5"),
    ("a word behind the sizes", "P 1 1 0 5 1 1"),
    ("a zero byte behind the last word", "P 1 1 0 5 1 \0"),
    ("a zero byte in a word", "P 1 1 0 5 1\0"),
    ("a byte that is no white space", "P 1 1 0 5\u{a0}1"),
];

/// Functions over one variable that are 17.
const NO_FUNCTIONS: [(&str, &str); 28] = [
    ("no function", ""),
    ("no scope", "1"),
    ("no default", "1 0"),
    ("no number of tuples", "1 0 0"),
    ("no tuple", "1 0 0 1"),
    ("no cost", "1 0 0 1 0"),
    ("a tuple too few", "1 0 0 2 0 1"),
    ("a word for an arity", "x 0 0 0"),
    ("a word for a variable", "1 x 0 0"),
    ("a word for a default", "1 0 x 0"),
    ("a word for a number of tuples", "1 0 0 x"),
    ("a word for a value", "1 0 0 1 x 5"),
    ("a word for a cost", "1 0 0 1 0 x"),
    ("a fraction", "1 0 0 1 0 1.5"),
    ("an exponent", "1 0 0 1 0 1e2"),
    ("hexadecimal digits", "1 0 0 1 0 0x1"),
    ("two signs", "1 0 0 1 0 --1"),
    ("both signs", "1 0 0 1 0 +-1"),
    ("a sign behind", "1 0 0 1 0 1-"),
    ("a minus alone", "1 0 0 1 0 -"),
    ("a plus alone", "1 0 0 1 0 +"),
    ("an undeclared variable", "1 1 0 0"),
    ("a negative variable", "1 -1 0 0"),
    ("an undeclared value", "1 0 0 1 2 3"),
    ("a negative value", "1 0 0 1 -1 3"),
    ("tuples without variables", "0 5 1 4"),
    ("a word behind the last function", "0 5 0 0"),
    ("a function too many", "0 5 0 0 5 0"),
];

/// Every kind of 17, by its name.
#[test]
fn every_kind_of_17() {
    for (name, text) in NO_HEADS {
        assert_number(TEXT, name, text);
    }
    for (name, function) in NO_FUNCTIONS {
        assert_number(TEXT, name, &over_one(function));
    }
}

/// Functions over one variable that are 18.
const REFUSED_FUNCTIONS: [(&str, &str); 14] = [
    ("a negative arity", "-1 0 0 0"),
    ("a negative default", "1 0 -1 0"),
    ("a negative number of tuples", "1 0 0 -1"),
    ("a negative cost", "1 0 0 1 0 -1"),
    ("a default that is too large", "1 0 4294967296 0"),
    ("one for which no entry is left", "1 0 4294967296 2 0 1 1 1"),
    ("a cost that is too large", "1 0 0 1 0 4294967296"),
    ("one without variables", "0 4294967296 0"),
    ("a variable twice", "2 0 0 0 0"),
    ("a variable twice, written otherwise", "2 0 +00 0 0"),
    ("a tuple twice", "1 0 0 2 1 3 1 4"),
    ("a tuple twice with one cost", "1 0 0 2 1 3 01 3"),
    ("a tuple twice, of the default", "1 0 7 2 1 7 1 7"),
    ("an arity of 4", "4 0 0 0 0 0 0"),
];

/// Every kind of 18, by its name; the limits have a test of their own.
#[test]
fn every_kind_of_18() {
    assert_number(0, "the least bound", "P 1 1 0 1 1");
    let texts = [
        ("a negative bound", "P 1 1 0 -1 1"),
        ("a negative domain size", "P 1 1 0 5 -1"),
        ("a bound that is too large", "P 1 1 0 4294967296 1"),
        ("a bound of 0", "P 1 1 0 0 1"),
        ("a bound of 0, written otherwise", "P 1 1 0 -00 1"),
        ("a domain of 0", "P 1 0 0 5 0"),
        ("no variable", "P 0 0 0 5"),
    ];
    for (name, text) in texts {
        assert_number(DIALECT, name, text);
    }
    for (name, function) in REFUSED_FUNCTIONS {
        assert_number(DIALECT, name, &over_one(function));
    }
    // A tuple may come again in another function, and other tuples in the same one.
    let pair = "P 2 2 2 9 2 2 2 0 1 0 4 0 0 1 0 1 1 1 0 1 1 1 1 2 0 1 0 1 0 0 1";
    assert_number(0, "all tuples once", pair);
    for tuple in ["0 0", "0 1", "1 0"] {
        let twice = pair.replace("1 1 1 2 0", &format!("{tuple} 1 2 0"));
        assert_number(DIALECT, tuple, &twice);
    }
}

/// Texts with 18 somewhere and 17 elsewhere, but not behind a listed negative number.
const BOTH: [(&str, &str); 14] = [
    ("a word", "P 1 1 0 4294967296 1 x"),
    ("a word behind a bound of 0", "P 1 1 0 0 1 x"),
    ("a variable behind a bound of 0", "P 1 1 1 0 1 1 1 0 0"),
    ("missing sizes", "P 25 9 0 5 9 1"),
    ("a value of a domain of nine", "P 1 9 1 5 9 1 0 0 1 9 4"),
    ("a scope of nine", "P 1 2 1 5 2 9 0 0 0 0 0 0 0 0 1"),
    ("a variable twice", "P 1 2 1 5 2 2 0 0 0 1 0 2 4"),
    ("a tuple twice", "P 1 2 2 5 2 1 0 0 2 1 3 1 4 1 1 0 0"),
    ("no variable", "P 0 0 1 5 1 0 0 0"),
    ("a size too large", "P 2 8 0 5 9 -1"),
    ("a negative variable", "P 1 2 1 5 2 1 -1 -1"),
    ("a negative number of variables", "P -1 2 1 -5"),
    ("before a negative default", "P 1 2 1 5 2 1 1 -1"),
    ("before a negative bound", "P x 1 0 -1"),
];

/// Texts with 17 behind a listed negative number.
const UNREAD: [(&str, &str); 11] = [
    ("no sizes", "P 1 1 0 -1"),
    ("words", "P 1 1 1 -1 x y z"),
    ("a largest domain not met", "P 2 5 0 5 3 -1"),
    ("no function", "P 1 2 1 5 2 -1"),
    ("a keyword", "P 1 2 1 5 2 1 0 -1 knapsack"),
    ("a shared function", "P 1 2 1 5 2 1 0 0 -1 and more"),
    ("undeclared values", "P 1 2 1 5 2 1 0 0 2 1 -4 9 9"),
    ("behind 18", "P 1 2 2 4294967296 2 0 -5"),
    ("behind a bound of 0", "P 1 2 2 0 2 0 -5"),
    ("a second negative number", "P 1 2 2 -5 -5 -5"),
    ("a long one", "P 1 1 0 -123456789012345678901234567890 x"),
];

#[test]
fn of_17_and_18_it_is_17_but_behind_a_listed_negative_number() {
    for (name, text) in BOTH {
        assert_number(TEXT, name, text);
    }
    for (name, text) in UNREAD {
        assert_number(DIALECT, name, text);
    }
}

/// A text of so many bytes of records: 29 tables of 512 entries, and charges over no variable or over one of
/// one value.
fn text_of_length(length: usize) -> String {
    let mut domains = vec![8; 23];
    domains.push(1);
    let largest = Table::new(0, &[0, 1, 2], &[u32::MAX; 512]);
    let mut problem = Problem {
        ceilings: vec![9],
        domains,
        tables: vec![largest; 29],
    };
    let rest = length - problem.encode().len();
    // Charges have 8 bytes and 9 bytes.
    let nines = rest % 8;
    let eights = (rest - 9 * nines) / 8;
    problem
        .tables
        .extend(vec![Table::new(0, &[], &[5]); eights]);
    problem
        .tables
        .extend(vec![Table::new(0, &[23], &[5]); nines]);
    assert_eq!(problem.encode().len(), length);
    let words = Said::of(&mut Rng::new(4), &problem).words(&mut Rng::new(4));
    words.join(" ")
}

/// A name, a text at the limit, and one beyond it.
type Limit = (&'static str, String, String);

/// How many there may be of something.
fn limits_of_counts() -> [Limit; 5] {
    let variables = |n: usize| format!("P {n} 1 0 5 {}", "1 ".repeat(n));
    let domain = |d: usize| format!("P 2 {d} 1 5 1 {d} 1 1 0 1 {} 5", d - 1);
    let functions = |r: usize| format!("P 1 1 {r} 5 1 {}", "0 1 0 ".repeat(r));
    let scope = |a: usize| (0..a).map(|v| format!("{v} ")).collect::<String>();
    let arity = |a: usize| {
        let (scope, values) = (scope(a), "1 ".repeat(a));
        format!("P 4 2 1 5 2 2 2 2 {a} {scope} 0 1 {values} 5")
    };
    [
        ("variables", variables(24), variables(25)),
        ("domain", domain(8), domain(9)),
        (
            "functions",
            functions(MAX_TABLES),
            functions(MAX_TABLES + 1),
        ),
        ("arity", arity(3), arity(4)),
        (
            "bytes",
            text_of_length(MAX_BYTES),
            text_of_length(MAX_BYTES + 1),
        ),
    ]
}

/// How large a cost or the bound may be.
fn limits_of_costs() -> [Limit; 4] {
    let both = |name, text: fn(u64) -> String| {
        let most = u64::from(u32::MAX);
        (name, text(most), text(most + 1))
    };
    [
        both("cost", |c| over_one(&format!("1 0 0 1 1 {c}"))),
        both("default", |c| over_one(&format!("1 0 {c} 0"))),
        both("charge", |c| over_one(&format!("0 {c} 0"))),
        both("bound", |c| format!("P 1 1 0 {c} 1")),
    ]
}

#[test]
fn each_limit_from_both_sides() {
    for (name, within, outside) in limits_of_counts().into_iter().chain(limits_of_costs()) {
        assert_number(0, name, &within);
        assert_number(DIALECT, name, &outside);
        assert_number(TEXT, name, &format!("{outside} more"));
    }
}

#[test]
fn far_outside_the_limits_17_is_still_told() {
    let (sizes, scope) = ("3 ".repeat(1_000), "999 ".repeat(9));
    let far = |value: &str| {
        let values = format!("{value} ").repeat(9);
        format!("P 1000 3 1 5 {sizes} 9 {scope} 0 1 {values} 4")
    };
    assert_number(DIALECT, "a thousand variables", &far("2"));
    assert_number(TEXT, "a value", &far("3"));
    assert_number(TEXT, "no cost", far("2").trim_end_matches(" 4"));
}

/// 2^64 + 1 and 2^64 + 2.
const HUGE: &str = "18446744073709551617";
const ABOVE: &str = "18446744073709551618";

#[test]
fn numbers_beyond_64_bits_are_compared() {
    let long = |size: &str, value: &str| format!("P 1 {size} 1 5 {size} 1 0 0 1 {value} 4");
    assert_number(DIALECT, "a size of 65 bits", &long(ABOVE, HUGE));
    assert_number(TEXT, "the size itself", &long(ABOVE, ABOVE));
    assert_number(TEXT, "above it", &long(HUGE, ABOVE));
    assert_number(DIALECT, "0 of it", &long(HUGE, "0"));
    assert_number(TEXT, "a larger size", &format!("P 1 {HUGE} 0 5 {ABOVE}"));
    assert_number(TEXT, "a smaller size", &format!("P 1 {ABOVE} 0 5 {HUGE}"));
    let nines = "9".repeat(40);
    assert_number(DIALECT, "40 digits", &long(&format!("1{nines}"), &nines));
    assert_number(TEXT, "a digit more", &long(&nines, &format!("1{nines}")));
}

/// 2^64 + 2 variables, functions, tuples or variables of a scope are not two of them.
#[test]
fn counts_beyond_64_bits_end_with_the_words() {
    let texts = [
        ("variables", format!("P {ABOVE} 1 0 5 1 1")),
        ("functions", format!("P 1 1 {ABOVE} 5 1 0 5 0 0 5 0")),
        ("an arity", over_one(&format!("{ABOVE} 0 0 0 0"))),
        ("tuples", over_one(&format!("1 0 0 {ABOVE} 0 1 1 1"))),
    ];
    for (name, text) in texts {
        assert_number(TEXT, name, &text);
    }
}

/// Texts of many megabytes, of white space, of zeros, and of variables, in a thread with the stack that the
/// header names and some for the rest.
#[test]
fn long_texts_take_no_more_stack_than_the_header_says() {
    let read = || {
        let space = " ".repeat(4_000_000);
        let zeros = "0".repeat(4_000_000);
        let spaced = format!("P{space}1 1 0 5{space}1");
        assert_eq!(from_text(spaced.as_bytes()), from_text(b"P 1 1 0 5 1"));
        let padded = format!("P {zeros}1 +{zeros}1 -{zeros} {zeros}5 1");
        assert_eq!(from_text(padded.as_bytes()), from_text(b"P 1 1 0 5 1"));
        let functions = "1 59999 0 1 1 5 ".repeat(100_000);
        let many = format!("P 60000 2 100000 5 {} {functions}", "2 ".repeat(60_000));
        assert_eq!(from_text(many.as_bytes()), Err(Refusal::Dialect));
        assert_eq!(from_text(format!("{many}x").as_bytes()), Err(Refusal::Text));
    };
    let thread = thread::Builder::new().stack_size(1 << 20).spawn(read);
    thread.expect("a thread").join().expect("all are as due");
}

#[test]
fn every_length_up_to_what_is_needed() {
    for problem in ten_problems() {
        let problem = in_one_objective(&problem);
        let need = problem.encode().len();
        let rng = &mut Rng::new(8);
        let text = Said::of(rng, &problem).text(rng);
        for length in 0..=need + 2 {
            let due = if length < need { OUTPUT } else { 0 };
            assert_eq!(assert_length(&text, length), due, "{length} of {need}");
        }
    }
}

/// Every buffer between closed pages, against the upper one and against the lower.
#[test]
fn nothing_is_touched_beside_a_buffer() {
    at_both_ends(|guarded| {
        let call = |text: &[u8], problem: &mut [u8]| guarded.borrow_mut().read(text, problem);
        for case in (40_000..42_000).map(Mixed::new) {
            assert_eq!(case.compare_reads(call), Ok(()));
        }
        for seed in 0..3_000 {
            let rng = &mut Rng::new(0x9e37 + seed);
            let mut text = generated(rng);
            text.truncate(TEXT_LEN);
            for length in lengths(rng, read_need(&text)) {
                let compared = compare_read(&text, &vec![JUNK; length], call);
                assert_eq!(compared, Ok(()), "seed {seed}");
            }
        }
    });
}

/// A text that ends at a closed page after each of its bytes: nothing behind it is read.
#[test]
fn a_text_may_end_after_any_byte() {
    let rng = &mut Rng::new(6);
    let text = Said::of(rng, &in_one_objective(&every_arity())).text(rng);
    let mut pages = Pages::new(text.len()).expect("memory");
    for length in 0..=text.len() {
        let part = &text[..length];
        let lent = pages.lend(part, End::Upper);
        assert_eq!(from_text(lent), from_text(part), "{length}");
    }
}

/// What the text call writes is read as the same bytes, but that forbidden entries have become the upper bound.
#[test]
fn there_and_back() {
    let rng = &mut Rng::new(11);
    for case in 0..5_000 {
        let shape = [Shape::small(), Shape::many_variables(), Shape::wide()];
        let problem = in_one_objective(&random_problem(rng, &shape[case % 3]));
        let text = to_text(&problem.encode()).expect("one objective and a bound");
        let due = back(&problem).encode();
        assert_eq!(from_text(text.as_bytes()), Ok(due), "{text}");
    }
}

/// By the format's own words, and by the records read from the text, every complete choice costs the same, and
/// the same ones are allowed; and so they are when it is written again and read again.
#[test]
fn every_choice_costs_the_same_by_a_text_and_by_its_problem() {
    let rng = &mut Rng::new(12);
    let [mut asked, mut allowed] = [0; 2];
    for _ in 0..1_500 {
        let mut drawn = random_problem(rng, &Shape::small());
        draw_ends(rng, &mut drawn);
        let drawn = in_one_objective(&drawn);
        let said = Said::of(rng, &drawn);
        let text = said.text(rng);
        let bytes = from_text(&text).expect("a text within the limits");
        let problem = Problem::decode(&bytes).expect("what is written is accepted");
        let written = to_text(&bytes).expect("one objective and a bound");
        let again = from_text(written.as_bytes()).expect("what is written is read");
        let again = Problem::decode(&again).expect("what is read is accepted");
        assert_eq!(problem.ceilings.len(), 1);
        assert_eq!(u64::from(problem.ceilings[0]), said.bound - 1);
        assert_eq!(problem.domains, said.sizes);
        let scopes = |tables: &[Table]| -> Vec<Vec<u8>> {
            tables.iter().map(|table| table.scope.clone()).collect()
        };
        assert_eq!(scopes(&problem.tables), scopes(&drawn.tables));
        for choice in all_choices(&problem) {
            // Of a complete choice the bound is what it costs.
            let cost = bound_prefix(&bytes, &choice).least[0];
            let text = text.escape_ascii();
            assert_eq!(cost, said.cost(&choice), "{choice:?} of {text}");
            let due = said.allows(&choice).then_some(cost);
            for problem in [&problem, &again] {
                assert_eq!(allowed_cost(problem, &choice), due, "{choice:?} of {text}");
            }
            asked += 1;
            allowed += usize::from(due.is_some());
        }
    }
    assert!(
        allowed > 10_000 && asked > allowed + 10_000,
        "{allowed} of {asked}"
    );
}

#[test]
fn empty_slices() {
    assert_eq!(lent::from_text(&[], &mut []), Refusal::Text.into());
    assert_eq!(
        lent::from_text(b"P 1 1 0 5 1", &mut []),
        Refusal::Output.into()
    );
    assert_eq!(from_text(&[]), Err(Refusal::Text));
}
