//! How `chooser` tells refusals: number, word, place, what stands there, and what to mend.

use chooser::junk::Rng;
use frontier::Problem;
use testing::chooser_run::json::{parse, Value};
use testing::chooser_run::{run, run_with};
use testing::examples::{brimful, colours, pair, staircase};
use testing::owned::list_text;
use testing::random::{damage, random_problem, Shape};

/// Colours with other bytes at a place.
fn changed(place: usize, bytes: &[u8]) -> Vec<u8> {
    let mut problem = colours([100, 100]).encode();
    problem[place..place + bytes.len()].copy_from_slice(bytes);
    problem
}

/// A refused run: the words, the problem, and what must be told.
struct Case {
    words: Vec<&'static str>,
    bytes: Vec<u8>,
    number: u64,
    word: &'static str,
    place: u64,
    told: Vec<&'static str>,
}

fn solve(
    bytes: Vec<u8>,
    number: u64,
    word: &'static str,
    place: u64,
    told: &[&'static str],
) -> Case {
    Case {
        words: vec!["solve", "-"],
        bytes,
        number,
        word,
        place,
        told: told.to_vec(),
    }
}

fn of_records() -> Vec<Case> {
    let whole = colours([100, 100]).encode();
    let longer = [&whole[..], b"XYZ"].concat();
    let oversize = [&brimful().encode()[..], &[0]].concat();
    vec![
        solve(oversize, 1, "oversize", 0, &["60000"]),
        solve(Vec::new(), 2, "cut short", 0, &["the file is empty"]),
        solve(b"HD\x03".to_vec(), 2, "cut short", 0, &["bytes 48 44 03"]),
        solve(
            whole[..154].to_vec(),
            2,
            "cut short",
            133,
            &["CF record 5", "bytes 43 46 01 02"],
        ),
        solve(
            whole[..20].to_vec(),
            2,
            "cut short",
            20,
            &["ends where DO record 2", "no byte"],
        ),
        solve(
            changed(17, b"XO"),
            3,
            "stray mark",
            17,
            &["mark DO is due", "'XO'", "DO record 1"],
        ),
        solve(
            changed(45, b"\xff\x00"),
            3,
            "stray mark",
            45,
            &["CF record 1", "bytes ff 00 00 02"],
        ),
        solve(
            changed(2, &[25, 5]),
            4,
            "variables",
            0,
            &["is 25, and may be 1 to 24", "byte 2"],
        ),
        solve(
            changed(3, &[0]),
            5,
            "objectives",
            0,
            &["is 0, and may be 1 to 4", "byte 3"],
        ),
        solve(
            changed(4, &[1, 1]),
            6,
            "tables",
            0,
            &["is 257, and may be 0 to 256", "bytes 4 and 5"],
        ),
        solve(
            changed(22, &[9]),
            7,
            "domain",
            20,
            &["is 9, and may be 1 to 8", "bytes 44 4f 09"],
        ),
        solve(
            changed(25, &[2]),
            8,
            "owner",
            23,
            &["objective is 2, and may be 0 to 1"],
        ),
        solve(
            changed(48, &[4]),
            9,
            "arity",
            45,
            &["arity is 4, and may be 0 to 3"],
        ),
        solve(
            changed(49, &[1, 1]),
            10,
            "scope",
            45,
            &["scope is 1, 1: a module stands in it twice", "in any order"],
        ),
        solve(
            changed(49, &[3, 1]),
            10,
            "scope",
            45,
            &["scope is 3, 1: there is no module 3, the last one is 2"],
        ),
        solve(
            longer,
            11,
            "leftover",
            155,
            &["3 bytes follow", "there: bytes 58 59 5a\n"],
        ),
    ]
}

fn of_calls() -> Vec<Case> {
    let mut cases = vec![solve(
        staircase([64, 200]).encode(),
        15,
        "full",
        0,
        &["more points than", "(64)", "lower"],
    )];
    let mut ask =
        |words: &[&'static str], problem: Problem, number, word, place, told: &[&'static str]| {
            cases.push(Case {
                words: words.to_vec(),
                ..solve(problem.encode(), number, word, place, told)
            });
        };
    let colours = || colours([100, 100]);
    ask(
        &["cut", "-", "01"],
        colours(),
        13,
        "sides",
        0,
        &["2 sides for 3 modules"],
    );
    ask(
        &["cut", "-", ""],
        colours(),
        13,
        "sides",
        0,
        &["0 sides for 3 modules"],
    );
    ask(
        &["cut", "-", "012"],
        colours(),
        13,
        "sides",
        0,
        &["neither 0 nor 1", "module 0, module 1"],
    );
    let sides = ["module 0 (side 0), module 2 (side 1)", "CF record 1"];
    ask(&["cut", "-", "001"], colours(), 14, "linked", 45, &sides);
    ask(
        &["cut", "-", "01", "--room", "2"],
        pair([9, 9]),
        15,
        "full",
        0,
        &["(2)", "half"],
    );
    ask(
        &["cut", "-", "0001"],
        staircase([64, 200]),
        15,
        "full",
        0,
        &["a half more than 64"],
    );
    ask(
        &["bound", "-", "0,1,2"],
        colours(),
        16,
        "prefix",
        0,
        &["module 2 is given value 2"],
    );
    ask(
        &["bound", "-", "0,0,0,0"],
        colours(),
        16,
        "prefix",
        0,
        &["4 values for 3 modules"],
    );
    ask(
        &["bound", "-", "255"],
        colours(),
        16,
        "prefix",
        0,
        &["values 0 to 1"],
    );
    cases
}

#[test]
fn every_number_is_told_with_its_word_place_and_what_to_mend() {
    for case in of_records().iter().chain(&of_calls()) {
        let ended = run_with(&case.words, &case.bytes).with(1);
        let head = format!(
            "chooser: standard input is refused with number {} ({}) at byte {}\n",
            case.number, case.word, case.place
        );
        assert!(ended.err.starts_with(&head), "{}", ended.err);
        assert_eq!(ended.out, b"");
        let ended = ended.tells(&case.told);
        ended.tells(&["\n  wrong: ", "\n  mend:  "]);
    }
}

#[test]
fn every_refusal_is_one_json_object() {
    for case in of_records().iter().chain(&of_calls()) {
        let words = [&case.words[..], &["--json"]].concat();
        let ended = run_with(&words, &case.bytes).with(1);
        assert_eq!(ended.err, "");
        let value = parse(ended.text());
        let refused = value.at("refused");
        assert_eq!(refused.at("number").number(), case.number);
        assert_eq!(refused.at("word").text(), case.word);
        assert_eq!(refused.at("place").number(), case.place);
        assert!(!refused.at("wrong").text().is_empty() && !refused.at("mend").text().is_empty());
        let has_record = matches!(case.number, 2..=11 | 14);
        assert_eq!(
            refused.at("record") != &Value::Null,
            has_record,
            "{}",
            case.number
        );
    }
}

#[test]
fn all_numbers_that_a_file_can_reach_are_tried() {
    let mut numbers: Vec<u64> = of_records()
        .iter()
        .chain(&of_calls())
        .map(|c| c.number)
        .collect();
    numbers.sort_unstable();
    numbers.dedup();
    // 12 is for a work buffer that is too short, and the command lends a long one.
    let due: Vec<u64> = (1..=16).filter(|&number| number != 12).collect();
    assert_eq!(numbers, due);
}

#[test]
fn a_refused_text_problem_is_told_with_its_names() {
    let ended = run(&["cut", "examples/firmware.txt", "0101"]).with(1);
    ended.tells(&[
        "number 14 (linked) at byte 85 of the packed problem",
        "uart (side 0), crc (side 1)",
        "CF record 4",
    ]);
    let ended = run(&["bound", "examples/firmware.txt", "0,7"]).with(1);
    ended.tells(&["crc is given value 7", "uart, crc, timer, filter"]);
}

#[test]
fn unpack_tells_the_refusals_of_records_and_writes_nothing() {
    for case in of_records() {
        let ended = run_with(&["unpack", "-"], &case.bytes).with(1);
        assert_eq!(ended.out, b"");
        ended.tells(&[&format!(
            "number {} ({}) at byte {}",
            case.number, case.word, case.place
        )]);
    }
    let text = run_with(&["unpack", "-"], b"costs size\n").with(1);
    text.tells(&["number 3 (stray mark) at byte 0", "chooser help pack"]);
}

#[test]
fn damaged_problems_are_answered_as_the_list_program_answers_them() {
    let mut rng = Rng::new(11);
    for _ in 0..300 {
        let mut bytes = random_problem(&mut rng, &Shape::small()).encode();
        damage(&mut rng, &mut bytes);
        let ended = run_with(&["solve", "-", "--json"], &bytes);
        if !bytes.starts_with(b"HD") && !b"HD".starts_with(&bytes) {
            ended.with(1).tells(&["standard input:1:"]);
            continue;
        }
        let due = list_text(&bytes);
        let value = parse(ended.text());
        let told = match value.at("refused") {
            Value::Null => format!("points {} ", value.at("points").items().len()),
            refused => {
                let [number, place] = ["number", "place"].map(|name| refused.at(name).number());
                format!("refused {number} at {place}\n")
            }
        };
        assert!(due.starts_with(&told), "{told} instead of {due}");
        ended.with(i32::from(due.starts_with("refused")));
    }
}
