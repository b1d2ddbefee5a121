//! WCSP text read by the command: how such a file is known, what `wcsp` and `pack` make of it, that the other
//! subcommands take it, and what a refused one is told with: line, column and what is wrong.

use std::fs;
use std::path::PathBuf;

use chooser::junk::Rng;
use chooser::text::{write, Named, Names};
use chooser::wcsp::{find, is_wcsp};
use frontier::{from_text, to_text, Problem, Refusal};
use testing::chooser_run::{folder, run, run_with};
use testing::examples::colours_first;
use testing::places::root;
use testing::random::{random_problem, Shape};
use testing::read_texts::generated;
use testing::said::Said;
use testing::wcsp::in_one_objective;

/// Two variables; the pair of ones costs 9, each other pair the default.
const PAIR: &str = "pair 2 2 1 100\n2 2\n2 0 1 3 1\n1 1 9\n";

/// A file with this content in a folder for the test.
fn file(test: &str, name: &str, content: impl AsRef<[u8]>) -> (PathBuf, String) {
    let path = folder(test).join(name);
    fs::write(&path, content).expect("a file can be written");
    let name = path
        .to_str()
        .expect("the folder's name is text")
        .to_string();
    (path, name)
}

/// The text form of a text's problem.
fn unpacked(text: &[u8]) -> String {
    let problem = Problem::decode(&from_text(text).expect("a text")).expect("a problem");
    let names = Names::invented(&problem);
    write(&Named { problem, names })
}

#[test]
fn wcsp_makes_text_or_bytes_of_it() {
    let (_, name) = file("wcsp_read", "pair.wcsp", PAIR);
    let records = from_text(PAIR.as_bytes()).expect("a text");
    let printed = run(&["wcsp", &name]).with(0);
    assert_eq!(
        (printed.text(), &printed.err[..]),
        (&unpacked(PAIR.as_bytes())[..], "")
    );
    assert_eq!(run_with(&["pack", "-"], &printed.out).with(0).out, records);
    for (end, due) in [("bin", &records), ("txt", &printed.out)] {
        let output = folder("wcsp_read_out").join(format!("pair.{end}"));
        let ended = run(&["wcsp", &name, "-o", output.to_str().expect("a text")]).with(0);
        assert_eq!((ended.out, ended.err), (Vec::new(), String::new()));
        assert_eq!(&fs::read(&output).expect("it was written"), due);
    }
    assert_eq!(run(&["wcsp", &name, "-o", "-"]).with(0).out, printed.out);
    assert_eq!(run(&["pack", &name]).with(0).out, records);
    // And there again, by way of either form.
    for form in [&records, &printed.out] {
        let text = run_with(&["wcsp", "-"], form).with(0).out;
        assert_eq!(from_text(&text), Ok(records.clone()));
    }
}

#[test]
fn the_other_subcommands_take_it() {
    let (_, name) = file("wcsp_taken", "pair.wcsp", PAIR);
    let solved = run(&["solve", &name]).with(0);
    let due = "1 point\n\ncost 0  |  module 0  module 1\n     3  |  0         0\n";
    assert_eq!((solved.text(), &solved.err[..]), (due, ""));
    assert_eq!(
        run_with(&["solve", "-"], PAIR.as_bytes()).with(0).out,
        solved.out
    );
    let json = run(&["solve", &name, "--json"]).with(0);
    assert!(json.text().contains("\"choice\":[0,0]"), "{}", json.text());
    let bound = run(&["bound", &name, "1,1"]).with(0);
    assert!(bound.text().contains('9'), "{}", bound.text());
    run(&["cut", &name, "01"])
        .with(1)
        .tells(&["number 14 (linked) at byte 16 of the packed problem"]);
    let picture = folder("wcsp_plot").join("pair.svg");
    run(&["plot", &name, "-o", picture.to_str().expect("a text")]).with(0);
}

/// What a text problem may have before its first statement.
const BEFORE: [&str; 6] = [
    "",
    "# 3 2 1 5\n",
    "#3 2 1 5\n",
    "\u{feff}",
    "\u{feff}# 3 2 1 5\n",
    "\n\n",
];

/// Content tells where the name does not: texts of both kinds, generated.
#[test]
fn a_text_problem_is_not_taken_for_it() {
    let rng = &mut Rng::new(31);
    for case in 0..400 {
        let shape = [Shape::small(), Shape::many_variables()];
        let problem = random_problem(rng, &shape[case % 2]);
        let names = Names::invented(&problem);
        let one = in_one_objective(&problem);
        let text = write(&Named { problem, names });
        for before in BEFORE {
            assert!(!is_wcsp(format!("{before}{text}").as_bytes()), "{text}");
        }
        let written = to_text(&one.encode()).expect("one objective and a bound");
        assert!(is_wcsp(written.as_bytes()), "{written}");
        // A name with a number sign is one that a text problem can start with.
        let text = Said::of(rng, &one).text(rng);
        let is_comment = text.trim_ascii_start().starts_with(b"#");
        assert_eq!(is_wcsp(&text), !is_comment, "{}", text.escape_ascii());
    }
}

#[test]
fn examples_and_faulty_text_problems_are_not_taken_for_it() {
    let folder = root().join("examples");
    let mut seen = 0;
    for entry in fs::read_dir(folder).expect("a folder") {
        let path = entry.expect("an entry").path();
        if path.extension().is_some_and(|end| end == "txt") {
            let text = fs::read(&path).expect("a file");
            assert!(!is_wcsp(&text), "{}", path.display());
            seen += 1;
        }
    }
    assert!(seen > 1, "{seen}");
    let faulty = [
        "",
        "costs",
        "costs 3 2 1 5",
        "module 3",
        "table 3 4",
        "cost size",
        "P",
        "P x",
        "P 1 x",
    ];
    for text in faulty {
        assert!(!is_wcsp(text.as_bytes()), "{text}");
    }
}

/// A name that ends so says that it is, though it starts as a binary problem or a text problem does.
#[test]
fn the_name_of_the_file_decides_first() {
    for name in ["HD", "HDx", "costs", "#"] {
        let (_, file) = file("wcsp_named", "named.wcsp", PAIR.replace("pair", name));
        run(&["solve", &file]).with(0);
    }
    let (_, binary) = file("wcsp_binary", "binary.wcsp", colours_first(9).encode());
    run(&["solve", &binary])
        .with(1)
        .tells(&["(refused with number 17, text)"]);
}

/// Texts that are refused, and what a person is told: line and column, what is wrong, number and word.
const TOLD: [(&str, &str); 28] = [
    (
        "",
        "1:1: the text is empty; a name comes first (refused with number 17, text)",
    ),
    (
        "P 1 1",
        "1:6: the text ends where the number of functions is due",
    ),
    (
        "P 1 1 0\n",
        "2:1: the text ends where the upper bound is due",
    ),
    (
        "P x 1 0 5 1",
        "1:3: 'x' is not a number, and the number of variables is due here",
    ),
    (
        "P -1 1 0 5 1",
        "1:3: the number of variables is negative ('-1'); give one from 0 on",
    ),
    (
        "P 1 1 0 -5 1",
        "1:9: the upper bound is negative ('-5'); no cost is below it",
    ),
    (
        "P 2 2 0 5\n1\t-2",
        "2:3: the domain size of variable 1 is negative ('-2'); a domain by its",
    ),
    (
        "P 2 3 0 5 1 2",
        "1:5: the largest domain size is 2, and another is stated here",
    ),
    (
        "P 2 1 0 5 1 2",
        "1:13: the domain size of variable 1 is above the largest one",
    ),
    (
        "P 1 9 0 5 9",
        "1:11: the domain size of variable 0 is '9', and may be 1 to 8",
    ),
    (
        "P 0 0 0 5",
        "1:3: the number of variables is '0', and may be 1 to 24",
    ),
    (
        "P 1 1 257 5 1 x",
        "1:15: 'x' is not a number, and the arity of function 0 is due here",
    ),
    (
        "P 1 1 0 4294967296 1",
        "1:9: the upper bound is '4294967296', and may be 1 to 4294967295; costs stay below it",
    ),
    (
        "P 1 1 0 0 1",
        "1:9: the upper bound is '0', and may be 1 to 4294967295; costs stay below it",
    ),
    (
        "P 1 1 0 5 1 1",
        "1:13: the last function has ended before this word",
    ),
    (
        "P 1 2 1 5 2\n-1 0",
        "2:1: the arity of function 0 is negative ('-1'); a shared function",
    ),
    (
        "P 1 2 1 5 2\n4 0 0 0 0 0 0",
        "2:1: the arity of function 0 is '4', and may be 0 to 3",
    ),
    (
        "P 1 2 1 5 2\n1 1 0 0",
        "2:3: there is no variable '1': there are 1",
    ),
    (
        "P 1 2 1 5 2\n2 0 0 0 0",
        "2:5: variable 0 stands twice in the scope; name it once",
    ),
    (
        "P 1 2 1 5 2\n1 0 -1 knapsack",
        "2:5: the default cost of function 0 is negative ('-1')",
    ),
    (
        "P 1 2 1 5 2\n1 0 4294967296 0",
        "2:5: the default cost of function 0 is '4294967296'",
    ),
    (
        "P 1 2 1 5 2\n1 0 0 -1",
        "2:7: the number of tuples of function 0 is negative ('-1')",
    ),
    (
        "P 1 2 1 5 2\n0 5 1 4",
        "2:5: a function of arity 0 has no tuples",
    ),
    (
        "P 1 2 1 5 2\n1 0 0 1\n2 4",
        "3:1: variable 0 has no value '2': its domain size is 2",
    ),
    (
        "P 1 2 1 5 2\n1 0 0 1\n-1 4",
        "3:1: a value of variable 0 in function 0 is negative ('-1')",
    ),
    (
        "P 1 2 1 5 2\n1 0 0 2\n1 4\n01 4",
        "4:1: this tuple is given twice in its function",
    ),
    (
        "P 1 2 1 5 2\n1 0 0 1\n1 -4",
        "3:3: the cost of a tuple of function 0 is negative ('-4')",
    ),
    (
        "P 1 2 1 5 2\n1 0 0 1\n1 \u{e9}\u{e9}",
        "3:3: '\u{e9}\u{e9}' is not a number",
    ),
];

#[test]
fn a_refused_text_is_told_with_line_and_column() {
    for (text, told) in TOLD {
        let refusal = from_text(text.as_bytes()).expect_err(text);
        let (_, name) = file("wcsp_refused", "text.wcsp", text);
        for words in [
            &["wcsp", &name][..],
            &["solve", &name, "--json"],
            &["pack", &name],
        ] {
            let ended = run(words).with(1);
            assert_eq!(ended.out, b"", "{text}");
            let number = format!(
                "(refused with number {}, {})",
                refusal.number(),
                refusal.word()
            );
            ended.tells(&[&format!("chooser: {name}:{told}"), &number]);
        }
    }
    let ended = run_with(&["solve", "-"], b"P 1 2 1 5 2\n1 0 0 1\n2 4\n").with(1);
    ended.tells(&[
        "standard input:3:1: variable 0 has no value '2'",
        "\n    2 4\n    ^\n",
    ]);
}

/// A place is told with the first of what the number is for, whatever stands behind it.
#[test]
fn of_several_the_first_that_the_number_is_for_is_told() {
    let at = |text: &str| find(text.as_bytes()).map(|finding| (finding.refusal, finding.place));
    assert_eq!(at("P 25 9 0 5 9"), Some((Refusal::Text, 12)));
    assert_eq!(at("P 1 9 1 4294967296 9 -1 x"), Some((Refusal::Dialect, 8)));
    assert_eq!(
        at("P 1 2 1 5 2 2 0 0 4294967296 0"),
        Some((Refusal::Dialect, 16))
    );
    assert_eq!(at("P 1 2 1 5 2 1 0 0 0"), None);
}

/// The command's own reading gives the library's number, and a place where a word starts or the text ends.
#[test]
fn the_place_is_for_the_number_that_the_library_gives() {
    let (mut refused, mut accepted, mut seed) = ([0; 2], 0, 0);
    while refused[0] + refused[1] < 20_000 {
        seed += 1;
        let text = generated(&mut Rng::new(0x3c5 + seed));
        let due = from_text(&text).err();
        let found = find(&text);
        let shown = text.escape_ascii();
        assert_eq!(
            found.as_ref().map(|finding| finding.refusal),
            due,
            "{shown}"
        );
        let Some(finding) = found else {
            accepted += 1;
            continue;
        };
        refused[usize::from(finding.refusal == Refusal::Text)] += 1;
        let is_space = |byte: u8| matches!(byte, 9..=13 | 32);
        let (before, behind) = text.split_at(finding.place);
        assert!(before.last().is_none_or(|&byte| is_space(byte)) || behind.is_empty());
        assert!(
            behind.first().is_none_or(|&byte| !is_space(byte)),
            "{shown}"
        );
        let fault = finding.fault(&text);
        assert!(fault.line > 0 && fault.column > 0 && !fault.message.is_empty());
    }
    assert!(
        refused
            .iter()
            .chain([&accepted])
            .all(|&times| times > 2_000),
        "{refused:?} {accepted}"
    );
}

/// As long as a text may be and longer, by name and by content.
#[test]
fn a_text_that_is_too_long_is_told_so() {
    let long = format!("{PAIR}{}", " ".repeat(8_000_000));
    let (path, name) = file("wcsp_long", "long.wcsp", &long);
    for ended in [
        run(&["solve", &name]),
        run_with(&["solve", "-"], long.as_bytes()),
    ] {
        ended.with(1).tells(&["has more than 8000000 bytes"]);
    }
    fs::write(&path, &long[..8_000_000]).expect("a file can be written");
    run(&["solve", &name]).with(0);
}
