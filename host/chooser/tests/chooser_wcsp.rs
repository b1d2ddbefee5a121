//! `chooser wcsp`: the text of a problem from text and from bytes, to standard output and to a file, and
//! problems that have none.

use std::fs;

use chooser::junk::Rng;
use testing::chooser_run::{folder, run, run_with};
use testing::examples::{brimful, colours, colours_first, lone};
use testing::random::{damage, random_problem, Shape};
use testing::texts::need;
use testing::wcsp::{in_one_objective, to_text};

const FORMAT: &str = include_str!("../../../docs/FORMAT.md");

/// What the independent converter makes of a problem's bytes.
fn converted(problem: &[u8]) -> Vec<u8> {
    let mut text = vec![0; need(problem)];
    to_text(problem, &mut text);
    text
}

/// What stands in the document as printed for the example.
fn documented() -> &'static str {
    let (_, rest) = FORMAT
        .split_once("```wcsp\n")
        .expect("the document has one");
    rest.split_once("```").expect("its end").0
}

#[test]
fn the_example_is_written_as_the_document_tells() {
    let printed = run(&["wcsp", "examples/boot.txt"]).with(0);
    assert_eq!((printed.text(), &printed.err[..]), (documented(), ""));
    let packed = run(&["pack", "examples/boot.txt"]).with(0).out;
    assert_eq!(run_with(&["wcsp", "-"], &packed).with(0).out, printed.out);
    assert_eq!(converted(&packed), printed.out);
}

#[test]
fn problems_with_one_cost_are_written_as_the_converter_writes_them() {
    let mut rng = Rng::new(7);
    for case in 0..200 {
        let shape = [Shape::small(), Shape::wide()];
        let problem = random_problem(&mut rng, &shape[case % 2]);
        let bytes = in_one_objective(&problem).encode();
        let ended = run_with(&["wcsp", "-"], &bytes).with(0);
        assert!(ended.out == converted(&bytes), "case {case}");
    }
    let full = in_one_objective(&brimful()).encode();
    assert!(run_with(&["wcsp", "-"], &full).with(0).out == converted(&full));
}

#[test]
fn a_file_gets_the_text_and_a_refusal_leaves_it() {
    let file = folder("wcsp").join("boot.wcsp");
    let name = file.to_str().expect("the folder's name is text");
    let written = || fs::read_to_string(&file).expect("it was written");
    let ended = run(&["wcsp", "examples/boot.txt", "-o", name]).with(0);
    assert_eq!((&ended.out[..], &ended.err[..]), (&b""[..], ""));
    assert_eq!(written(), documented());
    run(&["wcsp", "examples/firmware.txt", "-o", name]).with(1);
    assert_eq!(written(), documented());
    run_with(&["wcsp", "-", "-o", name], b"costs a\nmodule\n")
        .with(1)
        .tells(&["standard input:2:7: "]);
    assert_eq!(written(), documented());
    let printed = run(&["wcsp", "examples/boot.txt", "-o", "-"]).with(0);
    assert_eq!(printed.text(), documented());
}

#[test]
fn more_costs_than_one_are_told_by_their_names() {
    let ended = run(&["wcsp", "examples/firmware.txt"]).with(1);
    assert_eq!(ended.out, b"");
    ended.tells(&[
        "chooser: examples/firmware.txt is refused with number 18 (dialect) at byte 0\n",
        "\n  wrong: WCSP text has one cost, and this problem has 2: flash, cycles\n",
        "\n  mend:  leave one cost in the problem",
    ]);
    run_with(&["wcsp", "-"], &colours([9, 9]).encode())
        .with(1)
        .tells(&["has 2: cost 0, cost 1\n"]);
}

/// The upper bound of a text is one above the ceiling, so that the greatest ceiling has none.
#[test]
fn a_ceiling_that_is_too_high_is_told_by_its_cost() {
    let ended = run_with(&["wcsp", "-"], b"costs flash\nmodule uart: small\n").with(1);
    assert_eq!(ended.out, b"");
    ended.tells(&[
        "chooser: standard input is refused with number 18 (dialect) at byte 0\n",
        "\n  wrong: flash has the ceiling 4294967295, as a cost without one has, and the upper bound",
        "\n  mend:  give it a lower ceiling; 4294967294 still allows every cost but 4294967295",
    ]);
    run_with(&["wcsp", "-"], &lone(1, u32::MAX).encode())
        .with(1)
        .tells(&["wrong: cost 0 has the ceiling 4294967295"]);
    let next = run_with(&["wcsp", "-"], &lone(1, u32::MAX - 1).encode()).with(0);
    assert_eq!(next.text(), "P 1 1 0 4294967295\n1\n");
}

#[test]
fn refused_problems_are_told_as_solve_tells_them() {
    let mut rng = Rng::new(12);
    let mut refused = 0;
    for _ in 0..300 {
        let mut bytes = colours_first(100).encode();
        damage(&mut rng, &mut bytes);
        let solved = run_with(&["solve", "-"], &bytes);
        if solved.status == Some(1) {
            let ended = run_with(&["wcsp", "-"], &bytes).with(1);
            assert_eq!((ended.out, ended.err), (Vec::new(), solved.err));
            refused += 1;
        }
    }
    assert!(refused > 100, "{refused}");
}
