//! The text form: `chooser pack` and `chooser unpack` are inverse to each other, and every fault is
//! told with its line and column.

use std::fs;

use chooser::junk::Rng;
use chooser::text::{parse, write, Module, Named, Names};
use frontier::{Problem, Table, FORBIDDEN};
use testing::chooser_run::{run, run_with};
use testing::examples::{brimful, ten_problems};
use testing::places::root;
use testing::random::{random_problem, Shape};
use testing::reading::read_problem;
use testing::stored::nightly;

/// Asserts that these bytes, unpacked and packed again, are the same.
fn assert_round_trip(bytes: &[u8]) {
    let unpacked = run_with(&["unpack", "-"], bytes).with(0);
    assert_eq!(unpacked.err, "");
    let packed = run_with(&["pack", "-"], unpacked.text().as_bytes());
    assert_eq!(packed.err, "");
    assert_eq!(packed.out, bytes, "{}", unpacked.text());
}

#[test]
fn random_problems_come_back_as_they_were() {
    let mut rng = Rng::new(21);
    let shapes = [Shape::small(), Shape::many_variables(), Shape::wide()];
    for turn in 0..2_000 {
        assert_round_trip(&random_problem(&mut rng, &shapes[turn % 3]).encode());
    }
}

#[test]
fn the_nights_problems_come_back_as_they_were() {
    for stored in nightly() {
        assert_round_trip(&stored.bytes);
    }
}

#[test]
fn examples_come_back_as_they_were() {
    for problem in ten_problems() {
        assert_round_trip(&problem.encode());
    }
    assert_round_trip(&brimful().encode());
    assert_round_trip(&fs::read(root().join("examples/firmware.bin")).expect("it is there"));
}

#[test]
fn the_example_is_packed_as_it_says() {
    let packed = run(&["pack", "examples/firmware.txt"]).with(0);
    let bytes = fs::read(root().join("examples/firmware.bin")).expect("it is there");
    assert_eq!(packed.out, bytes);
    let problem = read_problem(&bytes).expect("it is accepted").problem;
    assert_eq!(problem.ceilings, [2400, 9000]);
    assert_eq!(problem.domains, [3, 3, 2, 3]);
    let two = [FORBIDDEN, 2300, 1100, 3900, 2300, 1100, 3600, 1950, 800];
    assert_eq!(problem.tables[4], Table::new(1, &[0, 1], &two));
}

#[test]
fn what_a_text_says_stays_in_the_text_that_is_written() {
    let text = fs::read(root().join("examples/firmware.txt")).expect("it is there");
    let named = parse(&text).expect("it is a problem");
    assert_eq!(parse(write(&named).as_bytes()), Ok(named.clone()));
    assert_eq!(named.names.costs, ["flash", "cycles"]);
    assert_eq!(
        named.names.modules[3].variants,
        ["loop", "unrolled", "lookup"]
    );
}

#[test]
fn the_modules_of_a_table_stand_in_any_order() {
    let text = "costs a
module m: x, y
module n: u, v, w
table a over n m:
       x  y
    u  4  1
    v  3  5
    w  2  0
";
    let named = parse(text.as_bytes()).expect("it is a problem");
    let turned = Table::new(0, &[1, 0], &[4, 1, 3, 5, 2, 0]);
    assert_eq!(named.problem.tables, [turned]);
    assert!(write(&named).ends_with(&text[text.find("table").expect("a table")..]));
}

/// The problem in a text.
fn problem_in(text: &str) -> Problem {
    parse(text.as_bytes())
        .unwrap_or_else(|fault| panic!("{fault}: {text}"))
        .problem
}

const PLAIN: &str = "\
costs a <= 5, b
module m: x, y
module n: u, v, w
table a over m n:
      u v w
    x 1 2 3
    y 4 5 never
table b: 7
";

#[test]
fn layout_does_not_matter_and_names_decide() {
    let due = Problem {
        ceilings: vec![5, u32::MAX],
        domains: vec![2, 3],
        tables: vec![
            Table::new(0, &[0, 1], &[1, 2, 3, 4, 5, FORBIDDEN]),
            Table::new(1, &[], &[7]),
        ],
    };
    assert_eq!(problem_in(PLAIN), due);
    assert_eq!(problem_in(&PLAIN.replace('\n', "\r\n")), due);
    assert_eq!(problem_in(&PLAIN.replace("    ", "\t")), due);
    assert_eq!(problem_in(&PLAIN.replace('\n', "  # said\n\n")), due);
    assert_eq!(problem_in(&format!("\u{feff}{}", PLAIN.trim_end())), due);
    assert_eq!(
        problem_in(&PLAIN.replace(", ", ",").replace(" <= ", "<=")),
        due
    );
    for below in ["< 6", "<6"] {
        assert_eq!(problem_in(&PLAIN.replace("<= 5", below)), due);
    }
    assert_eq!(problem_in(&PLAIN.replace("never", "4294967295")), due);
    let rows = PLAIN.replace("    x 1 2 3\n    y 4 5 never", " y 4 5 never\n x 1 2 3");
    assert_eq!(problem_in(&rows), due);
    let columns = PLAIN.replace("u v w\n", "w u v\n");
    let columns = columns
        .replace("1 2 3", "3 1 2")
        .replace("4 5 never", "never 4 5");
    assert_eq!(problem_in(&columns), due);
}

#[test]
fn no_word_is_kept_from_being_a_name() {
    let text = "\
costs over <= 9
module table: module, costs, never
table over over table:
    module costs never
    1      never 3
";
    assert_eq!(problem_in(text).tables[0].costs, [1, FORBIDDEN, 3]);
}

/// A plain text with one part replaced.
fn with(part: &str, other: &str) -> String {
    assert_eq!(PLAIN.matches(part).count(), 1, "{part}");
    PLAIN.replace(part, other)
}

/// Asserts that a text is at fault there, and told so with this part.
fn assert_fault(text: &str, line: usize, column: usize, part: &str) {
    let ended = run_with(&["pack", "-"], text.as_bytes()).with(1);
    assert_eq!(ended.out, b"");
    let place = format!("chooser: standard input:{line}:{column}: ");
    assert!(
        ended.err.starts_with(&place),
        "{place}{part}: {}\n{text}",
        ended.err
    );
    ended.tells(&[part]);
}

#[test]
fn faults_of_statements_are_told_with_line_and_column() {
    assert_fault("", 1, 1, "a problem has 1 to 4 costs");
    assert_fault("# none\n", 2, 1, "a problem has 1 to 4 costs");
    assert_fault("costs a\n", 2, 1, "a problem has 1 to 24 modules");
    assert_fault("costs a", 1, 8, "a problem has 1 to 24 modules");
    assert_fault("module m: x\n", 1, 1, "the costs stand first");
    assert_fault("table a: 1\n", 1, 1, "the costs stand first");
    assert_fault(
        "costs a\ntable a: 1\n",
        2,
        1,
        "modules stand before the tables",
    );
    assert_fault(
        &format!("{PLAIN}module o: z\n"),
        9,
        1,
        "modules stand before the tables",
    );
    assert_fault(
        &format!("{PLAIN}costs c\n"),
        9,
        1,
        "the costs stand in one line",
    );
    assert_fault(&with("module n", "modul n"), 3, 1, "did you mean 'module'?");
    assert_fault(&with("module n", "unit n"), 3, 1, "'unit' starts no line");
    assert_fault(
        &with("module n", " module n"),
        3,
        2,
        "an indented line belongs to the table",
    );
    assert_fault(
        &format!("{PLAIN}  x 1\n"),
        9,
        3,
        "an indented line belongs to the table",
    );
}

#[test]
fn faults_of_names_are_told_with_line_and_column() {
    assert_fault(&with(", b", ", a"), 1, 15, "'a' names a cost already");
    assert_fault(
        &with("module n", "module m"),
        3,
        8,
        "'m' names a module already",
    );
    assert_fault(&with("x, y", "x, x"), 2, 14, "'x' names a variant already");
    assert_fault(
        &with("x, y", "x, 2"),
        2,
        14,
        "the name of a variant is due, but '2' stands",
    );
    assert_fault(
        &with("x, y", "x,"),
        2,
        13,
        "the name of a variant is due, but the line ends",
    );
    assert_fault(&with("x, y", "x y"), 2, 13, "'y' is one word too many");
    assert_fault(&with("m: x", "m x"), 2, 10, "':' is due");
    assert_fault(&with("x, y", "x, y\u{7}"), 2, 14, "'y\\u{7}' stands");
    let long = "x".repeat(41);
    assert_fault(
        &with("x, y", &format!("x, {long}")),
        2,
        14,
        "at most 40 characters",
    );
    assert_fault(
        &with("x, y", "größe, größe"),
        2,
        18,
        "'größe' names a variant already",
    );
}

#[test]
fn faults_of_numbers_are_told_with_line_and_column() {
    assert_fault(&with("<= 5", "<="), 1, 11, "the ceiling is due");
    assert_fault(&with("<= 5", "<= never"), 1, 12, "the ceiling is due");
    assert_fault(
        &with("<= 5", "<= 4294967296"),
        1,
        12,
        "'4294967296' is too large; the ceiling is at most",
    );
    assert_fault(&with("<= 5", "<"), 1, 10, "the bound is due");
    assert_fault(&with("<= 5", "< = 5"), 1, 11, "the bound is due");
    assert_fault(
        &with("<= 5", "< 0"),
        1,
        11,
        "no cost is below 0; write '<= 0'",
    );
    assert_fault(
        &with("5, b", "5 6, b"),
        1,
        12 + 2,
        "'6' is one word too many",
    );
    assert_fault(
        &with("table b: 7", "table b: -7"),
        8,
        10,
        "'-7' stands here",
    );
    assert_fault(&with("table b: 7", "table b:"), 8, 9, "the line ends");
    assert_fault(
        &with("table b: 7", "table b: 7 8"),
        8,
        12,
        "'8' is one word too many",
    );
    assert_fault(&with("table b: 7", "table b 7"), 8, 9, "':' is due");
    assert_fault(
        &with("1 2 3", "1 1.5 3"),
        6,
        9,
        "the cost for 'v', or 'never', is due",
    );
}

#[test]
fn faults_of_tables_are_told_with_line_and_column() {
    assert_fault(
        &with("table b", "table c"),
        8,
        7,
        "'c' is not the name of a cost; there are: a, b",
    );
    assert_fault(
        &with("over m n", "over m o"),
        4,
        16,
        "'o' is not the name of a module",
    );
    assert_fault(&with("over m n", "over m m"), 4, 16, "stands twice");
    assert_fault(&with("over m n", "over m n m"), 4, 18, "stands twice");
    assert_fault(
        &with("over m n", "over"),
        4,
        13,
        "the name of a module is due",
    );
    assert_fault(
        &with("over m n:", "over m n: 3"),
        4,
        19,
        "rows stand in the lines below",
    );
    assert_fault(
        &with("u v w\n", "u v\n"),
        5,
        10,
        "the column for 'w' of n is missing",
    );
    assert_fault(
        &with("u v w\n", "u v u\n"),
        5,
        11,
        "'u' has a column already",
    );
    assert_fault(
        &with("u v w\n", "u v w x\n"),
        5,
        13,
        "'x' is not the name of a variant of n",
    );
    assert_fault(&with("1 2 3", "1 2"), 6, 10, "the cost for 'w'");
    assert_fault(&with("1 2 3", "1 2 3 4"), 6, 13, "'4' is one word too many");
    assert_fault(
        &with("y 4", "x 4"),
        7,
        5,
        "row for 'x' stands in line 6 already",
    );
    assert_fault(
        &with("y 4", "z 4"),
        7,
        5,
        "'z' is not the name of a variant of m",
    );
    assert_fault(
        &with("    y 4 5 never\n", ""),
        4,
        1,
        "this table has no row for 'y'",
    );
    let bare = "costs a\nmodule m: x\ntable a over m:\n";
    assert_fault(bare, 3, 1, "this table has no rows");
    assert_fault(
        &format!("{bare}  x\n"),
        3,
        1,
        "this table has no row of costs",
    );
    assert_fault(
        &format!("{bare}  x\n  1\n  2\n"),
        6,
        3,
        "row of costs stands in line 5 already",
    );
}

#[test]
fn bytes_that_are_no_text_are_told_with_line_and_column() {
    let ended = run_with(&["pack", "-"], b"costs a\nmodule \xc3\xa4: \xff\n").with(1);
    ended.tells(&["standard input:2:11: the byte 0xff is no text"]);
    let ended = run_with(&["solve", "-"], &[0, 1, 2]).with(1);
    ended.tells(&["standard input:1:1: '\\0\\u{1}\\u{2}' starts no line"]);
    let binary = run(&["pack", "examples/firmware.bin"]).with(1);
    binary.tells(&["is a binary problem already", "chooser unpack"]);
}

/// A text with so many costs, modules, variants of each, and tables over no module.
fn sized(costs: usize, modules: usize, variants: usize, tables: usize) -> String {
    let listed = |word: &str, count: usize| {
        let names: Vec<String> = (0..count).map(|i| format!("{word}{i}")).collect();
        names.join(", ")
    };
    let mut text = format!("costs {}\n", listed("c", costs));
    for i in 0..modules {
        text.push_str(&format!("module m{i}: {}\n", listed("v", variants)));
    }
    text.push_str(&"table c0: 1\n".repeat(tables));
    text
}

#[test]
fn every_limit_is_kept_and_told() {
    let packed = run_with(&["pack", "-"], sized(4, 24, 8, 256).as_bytes()).with(0);
    run_with(&["bound", "-", "-"], &packed.out).with(0);
    assert_fault(&sized(5, 1, 1, 0), 1, 23, "one cost more than 4");
    assert_fault(&sized(1, 25, 1, 0), 26, 1, "one module more than 24");
    assert_fault(&sized(1, 1, 9, 0), 2, 44, "one variant more than 8");
    assert_fault(&sized(1, 1, 1, 257), 259, 1, "one table more than 256");
    let four = sized(1, 4, 1, 0) + "table c0 over m0 m1 m2 m3:\n";
    assert_fault(&four, 6, 24, "at most 3 modules");
}

#[test]
fn a_text_for_more_than_60000_bytes_is_told_at_the_table_that_is_too_much() {
    let unpacked = run_with(&["unpack", "-"], &brimful().encode()).with(0);
    let text = unpacked.text();
    let lines = text.lines().count();
    let more = format!("{text}table cost0: 1\n");
    assert_fault(
        &more,
        lines + 1,
        1,
        "has 60008 bytes in records, and at most 60000",
    );
}

/// A problem of nearly 60,000 bytes with as many rows as there can be, since its last module has one
/// variant, and with names of 40 letters of four bytes each.
fn largest_text() -> Named {
    let name = |number: usize| "\u{10400}".repeat(38) + &format!("{number:02}");
    let table = Table::new(0, &[0, 1, 2], &[FORBIDDEN - 1; 64]);
    let problem = Problem {
        ceilings: vec![1],
        domains: vec![8, 8, 1],
        tables: vec![table; 228],
    };
    let modules = problem
        .domains
        .iter()
        .enumerate()
        .map(|(number, &size)| Module {
            name: name(number),
            variants: (0..size.into()).map(name).collect(),
        });
    let names = Names {
        costs: vec![name(0)],
        modules: modules.collect(),
    };
    Named { problem, names }
}

#[test]
fn the_largest_problem_with_the_longest_names_is_read() {
    let named = largest_text();
    let bytes = named.problem.encode();
    assert!((59_900..=60_000).contains(&bytes.len()), "{}", bytes.len());
    let text = write(&named);
    assert!(text.len() > 5_000_000, "{}", text.len());
    let packed = run_with(&["pack", "-"], text.as_bytes());
    assert_eq!(packed.err, "");
    assert_eq!(packed.out, bytes);
}

#[test]
fn changed_texts_are_read_or_told_and_what_is_read_is_accepted() {
    let firmware = fs::read(root().join("examples/firmware.txt")).expect("it is there");
    let marks = b" \t\n:,<=#0179az-\xff_\r";
    let mut rng = Rng::new(31);
    let (mut read, mut told) = (0, 0);
    for turn in 0..20_000 {
        let mut text = [PLAIN.as_bytes(), &firmware][turn % 2].to_vec();
        for _ in 0..1 + rng.below(3) {
            let place = rng.below(text.len().max(1));
            match rng.below(4) {
                _ if text.is_empty() => text.push(rng.pick(marks)),
                0 => text[place] = rng.pick(marks),
                1 => text.insert(place, rng.pick(marks)),
                2 => drop(text.remove(place)),
                _ => text.truncate(place + 1),
            }
        }
        match parse(&text) {
            Ok(named) => {
                read += 1;
                let bytes = named.problem.encode();
                let again = read_problem(&bytes).expect("what is packed is accepted");
                assert_eq!(again.problem, named.problem);
                assert_eq!(parse(write(&named).as_bytes()), Ok(named));
            }
            Err(fault) => {
                told += 1;
                let text = String::from_utf8_lossy(&text);
                let line = text
                    .split('\n')
                    .nth(fault.line - 1)
                    .expect("the line is there");
                assert!(
                    (1..=line.chars().count() + 1).contains(&fault.column),
                    "{fault}"
                );
            }
        }
    }
    assert!(read > 2_000 && told > 2_000, "{read} read, {told} told");
}
