//! The independent converter of WCSP text: texts as the prose has them, every kind of 17 and 18, which
//! of the two is told, numbers of any length, and there and back.

use chooser::junk::Rng;
use frontier::lent::Answer;
use frontier::limits::{MAX_BYTES, MAX_TABLES, TEXT_LEN};
use frontier::refusal::{DIALECT, OUTPUT, TEXT};
use frontier::{Problem, Refusal, Table, FORBIDDEN};
use testing::checker::all_choices;
use testing::examples::{brimful, colours, colours_first, every_arity, lone, turned};
use testing::random::{random_problem, Shape};
use testing::texts::{allowed_cost, back, draw_ends};
use testing::wcsp::{from_text, in_one_objective, to_text};

/// What every byte of a lent buffer holds.
const JUNK: u8 = 0xa5;

/// The text of a problem's bytes, or the refusal.
fn text(bytes: &[u8]) -> Result<String, Answer> {
    let text = form(to_text, bytes, TEXT_LEN)?;
    Ok(String::from_utf8(text).expect("it has digits, spaces, line feeds and a P"))
}

/// The problem of a text, or the number of refusal.
fn problem(text: &str) -> Result<Problem, u8> {
    let bytes = form(from_text, text.as_bytes(), MAX_BYTES).map_err(|answer| answer.number)?;
    Ok(Problem::decode(&bytes).expect("what is written is accepted"))
}

/// What a converter writes to a buffer of this length; asserts that it leaves the rest alone.
fn form(
    convert: fn(&[u8], &mut [u8]) -> Answer,
    input: &[u8],
    length: usize,
) -> Result<Vec<u8>, Answer> {
    let mut output = vec![JUNK; length];
    let answer = convert(input, &mut output);
    let rest = output.split_off(answer.count as usize);
    assert!(rest.iter().all(|&byte| byte == JUNK), "{answer:?}");
    match answer.number {
        0 => Ok(output),
        _ => Err(answer),
    }
}

/// Asserts that these texts are refused with this number, at place 0 with count 0.
fn assert_refused(number: u8, texts: &[&str]) {
    let due = Answer {
        number,
        place: 0,
        count: 0,
    };
    for text in texts {
        let answer = form(from_text, text.as_bytes(), MAX_BYTES);
        assert_eq!(answer.map(|_| ()), Err(due), "{text:?}");
    }
}

/// A problem over one variable of two values: `P 1 2 1 9`, `2`, and its one function behind them.
fn over_one(function: &str) -> String {
    format!("P 1 2 1 9\n2\n{function}\n")
}

#[test]
fn texts_are_those_of_the_prose() {
    assert_eq!(text(&lone(8, 1).encode()).as_deref(), Ok("P 1 8 0 2\n8\n"));
    let colours = "P 3 2 3 101\n2 2 2\n2 0 1 0 2\n0 0 1\n1 1 1\n2 0 2 0 2\n0 0 3\n1 1 3\n\
                   2 1 2 0 2\n0 0 6\n1 1 6\n";
    assert_eq!(text(&colours_first(100).encode()).as_deref(), Ok(colours));
    let turned = "P 2 3 2 10\n2 3\n2 1 0 0 5\n0 0 4\n0 1 1\n1 0 3\n1 1 5\n2 0 2\n\
                  2 0 1 0 5\n0 1 3\n0 2 1\n1 0 2\n1 1 6\n1 2 5\n";
    let written = text(&in_one_objective(&self::turned()).encode());
    assert_eq!(written.as_deref(), Ok(turned));
}

/// All four arities with the greatest entry that forbids nothing, a table of zeros, and a charge of 0.
#[test]
fn entries_of_0_have_no_line_but_for_arity_0() {
    let problem = Problem {
        ceilings: vec![0],
        domains: vec![1, 2, 2],
        tables: vec![
            Table::new(0, &[], &[0]),
            Table::new(0, &[], &[FORBIDDEN - 1]),
            Table::new(0, &[1], &[0, 0]),
            Table::new(0, &[2, 0, 1], &[0, 0, FORBIDDEN - 1, 10]),
        ],
    };
    let due = "P 3 2 4 1\n1 2 2\n0 0 0\n0 4294967294 0\n1 1 0 0\n3 2 0 1 0 2\n1 0 0 4294967294\n\
               1 0 1 10\n";
    assert_eq!(text(&problem.encode()).as_deref(), Ok(due));
}

/// With and without variables, under the least ceiling, the greatest that has a text, and one between.
#[test]
fn a_forbidden_entry_is_written_as_the_upper_bound() {
    for (ceiling, bound) in [(0, "1"), (41, "42"), (FORBIDDEN - 1, "4294967295")] {
        let problem = Problem {
            ceilings: vec![ceiling],
            domains: vec![2],
            tables: vec![
                Table::new(0, &[], &[FORBIDDEN]),
                Table::new(0, &[0], &[FORBIDDEN, FORBIDDEN - 1]),
            ],
        };
        let due = format!("P 1 2 2 {bound}\n2\n0 {bound} 0\n1 0 0 2\n0 {bound}\n1 4294967294\n");
        assert_eq!(text(&problem.encode()), Ok(due));
    }
}

#[test]
fn problems_are_refused_before_objectives_and_ceiling_and_these_before_the_buffer() {
    let bytes = colours([9, 9]).encode();
    let mut leftover = bytes.clone();
    leftover.push(0);
    let place = bytes.len() as u32;
    for length in [0, TEXT_LEN] {
        assert_eq!(
            form(to_text, &leftover, length),
            Err(Refusal::Leftover(place).into())
        );
        let highest = lone(1, u32::MAX).encode();
        for problem in [&bytes, &highest] {
            let written = form(to_text, problem, length);
            assert_eq!(written, Err(Refusal::Dialect.into()));
        }
    }
    let next = text(&lone(1, u32::MAX - 1).encode());
    assert_eq!(next.as_deref(), Ok("P 1 1 0 4294967295\n1\n"));
    let one = colours_first(9).encode();
    let need = text(&one).expect("a text").len();
    for length in 0..need {
        assert_eq!(form(to_text, &one, length), Err(Refusal::Output.into()));
    }
    for length in [need, need + 1, need + 100] {
        assert_eq!(form(to_text, &one, length).map(|text| text.len()), Ok(need));
    }
}

#[test]
fn a_text_of_the_greatest_length_is_there() {
    let mut full = in_one_objective(&brimful());
    for table in &mut full.tables {
        table.costs.fill(FORBIDDEN - 1);
    }
    let length = text(&full.encode()).expect("a text").len();
    assert!((254_000..=TEXT_LEN).contains(&length), "{length}");
}

/// The name, white space, zeros and signs are free; so are tuples that cost the default, and functions
/// and scopes keep their order.
#[test]
fn texts_are_read_in_any_layout() {
    let due = Problem {
        ceilings: vec![8],
        domains: vec![2, 3],
        tables: vec![
            Table::new(0, &[1, 0], &[7, 7, 0, 7, 7, 4]),
            Table::new(0, &[], &[5]),
            Table::new(0, &[0], &[1, 2]),
        ],
    };
    let plain = "P 2 3 3 9\n2 3\n2 1 0 7 3\n1 0 0\n2 1 4\n0 1 7\n0 5 0\n1 0 3 2\n1 2\n0 1\n";
    assert_eq!(problem(plain), Ok(due));
    let loose = plain
        .replace('\n', "\t\r\n\x0b\x0c ")
        .replace(" 3 ", " +003 ");
    assert_eq!(problem(&format!("\n {loose}")), problem(plain));
    assert_eq!(
        problem(&plain.replace("1 0 0", "01 -0 -000")),
        problem(plain)
    );
    assert_eq!(problem(&plain.replace('P', "-7")), problem(plain));
    assert_eq!(problem(plain.trim_end()), problem(plain));
}

#[test]
fn what_is_not_the_format_is_17() {
    let functions = [
        "",              // none, and one is announced
        "1",             // the scope is missing
        "1 0",           // the default
        "1 0 0",         // the number of tuples
        "1 0 0 1",       // the tuple
        "1 0 0 1 0",     // its cost
        "1 0 0 1 0 x",   // a word that is no number
        "1 0 0 1 0 1.5", // and more of them
        "1 0 0 1 0 1e2",
        "1 0 0 1 0 0x1",
        "1 0 0 1 0 --1",
        "1 0 0 1 0 +-1",
        "1 0 0 1 0 -",
        "1 0 0 1 0 +",
        "1 1 0 0",     // there is no variable 1
        "1 -1 0 0",    // nor -1
        "1 0 0 1 2 3", // there is no value 2
        "1 0 0 1 -1 3",
        "0 5 1 4", // without variables there are no tuples
        "0 5 0 0", // a word behind the last function
        "0 5 0 x", // whatever it is
    ];
    for function in functions {
        assert_refused(TEXT, &[&over_one(function)]);
    }
    let heads = [
        "",
        " \n",
        "P",
        "P 1",
        "P 1 1",
        "P 1 1 0",
        "P 1 1 0 5",
        "P x 1 0 5 1",
        "P -1 1 0 5 1",
        "P 1 -1 0 5 1",
        "P 1 1 -1 5 1",
        "P 1 2 0 5 1",   // the largest domain is not 2
        "P 2 1 0 5 1 2", // nor 1
        "P 0 1 0 5",     // nor 1, where there is none
        "P 1 1 0 5 1 1", // a size too many
    ];
    assert_refused(TEXT, &heads);
}

#[test]
fn content_that_is_refused_is_18() {
    let functions = [
        "-1 0 0 0",                 // a negative arity
        "1 0 -1 0",                 // a default cost
        "1 0 0 -1",                 // a number of tuples
        "1 0 0 1 0 -1",             // a cost
        "1 0 4294967296 0",         // a default that is too large,
        "1 0 4294967296 2 0 1 1 1", // also where tuples cover every entry
        "1 0 0 1 0 4294967296",     // a cost
        "0 4294967296 0",           // also without variables
        "2 0 0 0 0",                // a variable twice
        "1 0 0 2 1 3 1 4",          // a tuple twice,
        "1 0 0 2 1 3 01 3",         // also with the same cost
        "4 0 0 0 0 0 0",            // an arity of 4
    ];
    for function in functions {
        assert_refused(DIALECT, &[&over_one(function)]);
    }
    let sizes = "1 ".repeat(25);
    let charges = "0 1 0 ".repeat(MAX_TABLES + 1);
    let texts = [
        "P 1 1 0 -1 1",         // a negative bound
        "P 1 1 0 5 -1",         // a negative domain size
        "P 1 1 0 4294967296 1", // a bound that is too large
        "P 1 1 0 0 1",          // and one that no cost is below
        "P 1 1 0 -0 1",
        "P 1 9 0 5 9", // a domain of 9
        "P 1 0 0 5 0", // and of 0
        "P 2 2 0 5 2 0",
        "P 0 0 0 5",                         // no variable
        &format!("P 25 1 0 5 {sizes}"),      // 25 variables
        &format!("P 1 1 257 5 1 {charges}"), // 257 functions
        "P 4 1 1 5 1 1 1 1 4 0 1 2 3 0 0",
    ];
    assert_refused(DIALECT, &texts);
    let ceiling = |text: &str| problem(text).map(|problem| problem.ceilings[0]);
    assert_eq!(ceiling("P 1 1 0 1 1"), Ok(0));
    let widest = format!("P 24 1 0 4294967295 {}", "1 ".repeat(24));
    assert_eq!(ceiling(&widest), Ok(u32::MAX - 1));
    let charges = "0 4294967295 0 ".repeat(MAX_TABLES);
    assert!(problem(&format!("P 1 1 256 5 1 {charges}")).is_ok());
}

#[test]
fn of_17_and_18_it_is_17_wherever_both_stand() {
    let texts = [
        "P 1 1 0 4294967296 1 x",              // words behind what is refused
        "P 1 1 0 0 1 x",                       // behind a bound of 0, too
        "P 25 9 0 5 9 1",                      // sizes are missing
        "P 1 9 1 5 9 1 0 0 1 9 4",             // a value of the domain of 9
        "P 1 2 1 5 2 9 0 0 0 0 0 0 0 0 1",     // a variable in a scope of nine
        "P 1 2 1 5 2 2 0 0 0 1 0 2 4",         // a value in a scope with a variable twice
        "P 1 2 2 5 2 1 0 0 2 1 3 1 4 1 1 0 0", // a variable behind a tuple twice
        "P 0 1 0 5",                           // a false largest domain of no variables
        "P 0 0 1 5 1 0 0 0",                   // a variable where there is none
        "P 2 8 0 5 9 -1",                      // a false largest domain before a negative size
    ];
    assert_refused(TEXT, &texts);
    let (sizes, scope) = ("3 ".repeat(1_000), "999 ".repeat(9));
    let far = |value: &str| {
        format!(
            "P 1000 3 1 5 {sizes} 9 {scope} 0 1 {} 4",
            format!("{value} ").repeat(9)
        )
    };
    assert_refused(DIALECT, &[&far("2")]);
    assert_refused(TEXT, &[&far("3"), &far("2").replace(" 4", "")]);
}

#[test]
fn behind_the_first_listed_negative_number_nothing_is_read() {
    let texts = [
        "P 1 1 0 -1", // the sizes are missing
        "P 1 1 1 -1 x y z",
        "P 2 5 0 5 3 -1", // whether 5 is the largest is not known
        "P 1 2 1 5 2 -1",
        "P 1 2 1 5 2 1 0 -1 knapsack",   // a function by its name
        "P 1 2 1 5 2 1 0 0 -1 and more", // a function that is shared
        "P 1 2 1 5 2 1 0 0 2 1 -4 9 9",
        "P 1 2 2 4294967296 2 0 -5", // behind content that is refused as well
        "P 1 2 2 0 2 0 -5",
    ];
    assert_refused(DIALECT, &texts);
    // What stands before it is read.
    assert_refused(
        TEXT,
        &["P 1 2 1 5 2 1 1 -1", "P x 1 0 -1", "P 2 5 0 5 6 -1"],
    );
    // A negative number that is not listed is no such place.
    assert_refused(TEXT, &["P 1 2 1 5 2 1 -1 -1", "P -1 2 1 -5"]);
}

#[test]
fn numbers_of_any_length_are_compared() {
    let huge = "18446744073709551616"; // 2^64
    let above = "18446744073709551617";
    let long = "123456789012345678901234567890";
    let refused = [
        format!("P 1 {huge} 0 5 {huge}"),
        format!("P 1 1 0 {huge} 1"),
        format!("P 1 1 0 {long} 1"),
        over_one(&format!("1 0 {above} 0")),
        over_one(&format!("1 0 0 1 1 {long}")),
        format!("P 1 {above} 1 5 {above} 1 0 0 1 {huge} 4"),
        format!("P 1 {above} 1 5 {above} 1 0 0 2 {huge} 4 0{huge} 4"),
    ];
    refused
        .iter()
        .for_each(|text| assert_refused(DIALECT, &[text]));
    let faults = [
        format!("P 1 {above} 0 5 {huge}"),
        format!("P 1 {huge} 0 5 {above}"),
        format!("P {above} 1 0 5 1"),
        format!("P 1 1 {above} 5 1"),
        over_one(&format!("{above} 0")),
        over_one(&format!("1 {huge} 0 0")),
        over_one(&format!("1 0 0 {above} 0 1 1 1")),
        over_one(&format!("0 5 {huge}")),
        over_one(&format!("1 0 0 1 {above} 4")),
        format!("P 1 {above} 1 5 {above} 1 0 0 1 {above} 4"),
        format!("P 1 {long} 1 5 {long} 1 0 0 1 {long}0 4"),
    ];
    faults.iter().for_each(|text| assert_refused(TEXT, &[text]));
    assert_refused(DIALECT, &[&format!("P 1 1 0 -{long} x")]);
    let zeros = "0".repeat(40);
    assert!(problem(&format!("P 1 {zeros}2 0 {zeros}5 {zeros}2")).is_ok());
}

/// A problem of more than 60,000 bytes is refused as content, whatever buffer there is.
#[test]
fn the_records_limit_is_18_before_19() {
    let mut full = in_one_objective(&brimful());
    let (bytes, tables) = (full.encode(), full.tables.len());
    let fits = text(&bytes).expect("a text");
    assert!(form(from_text, fits.as_bytes(), MAX_BYTES) == Ok(bytes.clone()));
    let short = form(from_text, fits.as_bytes(), bytes.len() - 1);
    assert!(short == Err(Refusal::Output.into()));
    full.tables.push(Table::new(0, &[], &[1]));
    assert!(full.encode().len() > MAX_BYTES);
    let counted = fits.replacen(&format!(" {tables} "), &format!(" {} ", tables + 1), 1);
    let over = counted + "0 1 0\n";
    for length in [0, MAX_BYTES, 2 * MAX_BYTES] {
        let answer = form(from_text, over.as_bytes(), length).map(|form| form.len());
        assert_eq!(answer, Err(Refusal::Dialect.into()), "{length}");
    }
}

#[test]
fn a_short_buffer_is_19_and_keeps_what_it_held() {
    let problem = in_one_objective(&every_arity());
    let text = text(&problem.encode()).expect("a text");
    let bytes = back(&problem).encode();
    for length in 0..bytes.len() {
        let answer = form(from_text, text.as_bytes(), length).map_err(|answer| answer.number);
        assert_eq!(answer, Err(OUTPUT), "{length}");
    }
    for length in [bytes.len(), bytes.len() + 1, bytes.len() + 50] {
        let written = form(from_text, text.as_bytes(), length);
        assert_eq!(written, Ok(bytes.clone()), "{length}");
    }
}

/// A cost that is the upper bound or more, 4,294,967,295 included, stays as the text has it.
#[test]
fn costs_from_the_bound_on_are_read_as_they_stand() {
    let costs = [4, 5, 6, FORBIDDEN - 1, FORBIDDEN];
    let words = (0..)
        .zip(costs)
        .map(|(value, cost)| format!("{value} {cost} "));
    let tuples = words.collect::<String>();
    let read = problem(&format!("P 1 5 2 5 5 1 0 0 5 {tuples} 0 4294967295 0"));
    let tables = read.map(|problem| problem.tables);
    let due = [
        Table::new(0, &[0], &costs),
        Table::new(0, &[], &[FORBIDDEN]),
    ];
    assert_eq!(tables.as_deref(), Ok(&due[..]));
}

/// To the byte where no entry is forbidden; and forbidden ones have become the upper bound.
#[test]
fn there_and_back_gives_the_records() {
    let mut rng = Rng::new(2);
    let [mut same, mut other] = [0; 2];
    for case in 0..5_000 {
        let shape = [Shape::small(), Shape::many_variables(), Shape::wide()];
        let problem = in_one_objective(&random_problem(&mut rng, &shape[case % 3]));
        let bytes = problem.encode();
        let text = text(&bytes).expect("one objective and a bound");
        let read = form(from_text, text.as_bytes(), bytes.len());
        if problem
            .tables
            .iter()
            .any(|table| table.costs.contains(&FORBIDDEN))
        {
            assert_eq!(read, Ok(back(&problem).encode()), "{text}");
            other += 1;
        } else {
            assert_eq!(read, Ok(bytes), "{text}");
            same += 1;
        }
    }
    assert!(same > 1_000 && other > 1_000, "{same} {other}");
}

#[test]
fn there_and_back_the_same_choices_are_allowed_and_cost_the_same() {
    let mut rng = Rng::new(3);
    let [mut allowed, mut not] = [0; 2];
    for _ in 0..3_000 {
        let mut drawn = random_problem(&mut rng, &Shape::small());
        draw_ends(&mut rng, &mut drawn);
        let drawn = in_one_objective(&drawn);
        let text = text(&drawn.encode()).expect("one objective and a bound");
        let read = problem(&text).expect("what is written is read");
        for choice in all_choices(&drawn) {
            let cost = allowed_cost(&drawn, &choice);
            assert_eq!(allowed_cost(&read, &choice), cost, "{choice:?} of {text}");
            match cost {
                Some(_) => allowed += 1,
                None => not += 1,
            }
        }
    }
    assert!(allowed > 10_000 && not > 10_000, "{allowed} {not}");
}
