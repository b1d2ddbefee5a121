//! `chooser batch`: its table, the comparison of runs, the second call, and every way to fail.

use std::fs;
use std::path::{Path, PathBuf};

use chooser::batch_calls::{call_twice, lend_single};
use chooser::batch_csv::{parse_rows, write_rows, Row, COLUMNS};
use chooser::digest::fnv_1a;
use chooser::junk::Rng;
use frontier::lent::{Answer, BatchBuffers, SolveCall};
use testing::brute::solve_problem;
use testing::chooser_run::{folder, run_in, Ended};
use testing::examples::{colours, objects, staircase, three};
use testing::owned::frontier_of;

/// Problems of every kind: answered, refused 2, 1 and 15; one whose name has a comma and quotes.
fn problems() -> Vec<(&'static str, Vec<u8>)> {
    vec![
        ("a", colours([100, 100]).encode()),
        ("b, \"c\"", objects([13, 100, 100]).encode()),
        ("empty", vec![]),
        ("full", staircase([64, 200]).encode()),
        ("large", vec![b'H'; 70_000]),
        ("three", three([3, 3]).encode()),
    ]
}

/// A folder with these problems, in a folder of its own in which tables can stand.
fn batch_folder(name: &str) -> PathBuf {
    let folder = folder(&format!("batch_{name}"));
    fs::create_dir(folder.join("in")).expect("a folder can be made");
    for (problem, bytes) in problems() {
        let file = folder.join(format!("in/{problem}.bin"));
        fs::write(file, bytes).expect("a file can be written");
    }
    folder
}

/// Runs the command in a folder.
fn batch(folder: &Path, words: &[&str]) -> Ended {
    run_in(folder, &[&["batch"], words].concat(), &[])
}

/// Asserts how a run ends and that it is quiet on standard error; what it prints.
fn printed(folder: &Path, words: &[&str], status: i32) -> String {
    let ended = batch(folder, words).with(status);
    assert_eq!(ended.err, "");
    ended.text().into()
}

/// Asserts the status and the words of a run that cannot be made.
fn assert_complaint(folder: &Path, words: &[&str], status: i32, complaint: &str) {
    let ended = batch(folder, words).with(status).tells(&[complaint]);
    assert_eq!(ended.text(), "", "{words:?}");
}

/// The rows of a table with all times 0.
fn timeless_rows(table: &Path) -> Vec<Row> {
    let text = fs::read_to_string(table).expect("a table");
    let mut rows: Vec<Row> = parse_rows(&text).expect("rows").into_values().collect();
    let told = rows.iter_mut().filter_map(|row| row.told.as_mut());
    told.for_each(|told| told.microseconds = 0);
    rows
}

#[test]
fn the_table_has_what_the_brute_force_answers() {
    let folder = batch_folder("table");
    let text = printed(&folder, &["in", "--csv", "out.csv"], 0);
    let last = text.lines().last().unwrap();
    assert!(last.starts_with("6 in all: 3 answered, 3 refused, 0 without an answer; "));
    for refused in [
        "1 x  refused 1 (oversize)",
        "1 x  refused 2 (",
        "1 x  refused 15 (full)",
    ] {
        assert!(text.contains(refused), "{text}");
    }
    let table = fs::read_to_string(folder.join("out.csv")).expect("a table");
    assert_eq!(table.lines().next(), Some(COLUMNS));
    assert!(table.contains("\n\"b, \"\"c\"\"\","), "{table}");
    let rows = timeless_rows(&folder.join("out.csv"));
    for (row, (name, bytes)) in rows.iter().zip(problems()) {
        assert_eq!((row.name.as_str(), row.bytes), (name, bytes.len() as u64));
        let told = row.told.expect("an answer");
        let answer = [told.number.into(), told.place, told.count];
        match frontier_of(&bytes) {
            Err(refusal) => assert_eq!(answer, [refusal.number().into(), refusal.place(), 0]),
            Ok(list) => {
                assert_eq!(answer, [0, 0, list.len() as u32]);
                let costs = list.iter().flat_map(|point| point.costs.clone());
                let choices = list.iter().flat_map(|point| point.choice.clone());
                let bytes = costs.flat_map(u32::to_le_bytes).chain(choices);
                assert_eq!(told.digest, fnv_1a(bytes), "{name}");
            }
        }
    }
    assert_eq!(rows.len(), problems().len());
}

#[test]
fn any_number_of_jobs_gives_the_same_table() {
    let folder = batch_folder("jobs");
    for jobs in ["1", "2", "7"] {
        printed(&folder, &["in", "--jobs", jobs, "--csv", jobs], 0);
    }
    let first = timeless_rows(&folder.join("1"));
    assert_eq!(timeless_rows(&folder.join("2")), first);
    assert_eq!(timeless_rows(&folder.join("7")), first);
}

#[test]
fn an_equal_run_has_no_difference() {
    let folder = batch_folder("equal");
    printed(&folder, &["in", "--csv", "old.csv"], 0);
    let text = printed(&folder, &["in", "--compare", "old.csv", "--twice"], 0);
    assert!(
        text.contains("\ncompared: 6 the same, 0 different\n"),
        "{text}"
    );
}

#[test]
fn the_old_word_does_the_same_and_tells_the_new_one() {
    let folder = batch_folder("renamed");
    printed(&folder, &["in", "--csv", "new.csv"], 0);
    let told = ["'night' is called 'batch' now"];
    let words = ["night", "in", "--csv", "old.csv", "--compare", "new.csv"];
    let ended = run_in(&folder, &words, &[]).with(0).tells(&told);
    assert!(ended
        .text()
        .contains("\ncompared: 6 the same, 0 different\n"));
    assert_eq!(
        timeless_rows(&folder.join("old.csv")),
        timeless_rows(&folder.join("new.csv"))
    );
    let due = run_in(&folder, &["help", "batch"], &[]).with(0).out;
    let help = run_in(&folder, &["help", "night"], &[]).with(0);
    assert_eq!(help.tells(&told).out, due);
}

#[test]
fn every_difference_is_named() {
    let folder = batch_folder("different");
    printed(&folder, &["in", "--csv", "old.csv"], 0);
    let mut rows: Vec<Row> = timeless_rows(&folder.join("old.csv"));
    rows[0].told.as_mut().unwrap().digest ^= 1;
    rows[2].told.as_mut().unwrap().place = 1;
    rows[3].told = None; // given up in the earlier run
    rows[4].bytes = 5;
    rows[5].name = "gone".into();
    fs::write(folder.join("old.csv"), write_rows(&rows, false)).expect("a table can be written");
    let text = printed(&folder, &["in", "--compare", "old.csv"], 1);
    for difference in [
        "\na: another answer, 2 points with digest ",
        "\nempty: another answer, refused 2 at 0 instead of refused 2 at 1\n",
        "\nlarge: another problem, 70000 bytes instead of 5\n",
        "\nthree: new\n",
        "\ngone: missing\n",
        "\ncompared: 1 the same, 5 different, 1 without an answer in one of the runs\n",
    ] {
        assert!(text.contains(difference), "{difference}{text}");
    }
}

#[test]
fn a_problem_that_is_too_slow_is_given_up() {
    let folder = batch_folder("hurried");
    let words = ["in", "--limit", "0.000001", "--csv", "out.csv"];
    let text = printed(&folder, &words, 1);
    assert!(text.contains("a: given up after 0.000001 s\n"), "{text}");
    assert!(text.contains("6 in all: 0 answered, 0 refused, 6 without an answer; "));
    let rows = timeless_rows(&folder.join("out.csv"));
    assert!(rows.iter().all(|row| row.told.is_none()));
}

#[test]
fn what_cannot_be_run_is_complained_about() {
    let folder = batch_folder("complaints");
    let [missing, empty] = ["no/such/folder", "empty"];
    fs::create_dir(folder.join(empty)).expect("a folder can be made");
    assert_complaint(&folder, &[], 2, "DIR is missing");
    assert_complaint(&folder, &[missing], 2, "cannot be opened");
    assert_complaint(&folder, &[empty], 2, "has no problem file (NAME.bin)");
    assert_complaint(&folder, &["in", "in"], 2, "one word too many");
    assert_complaint(&folder, &["in", "--twise"], 2, "did you mean '--twice'?");
    for jobs in ["0", "-1", "x", "257"] {
        assert_complaint(&folder, &["in", "--jobs", jobs], 2, "--jobs takes a number");
    }
    for limit in ["0", "-1", "soon", "inf", "NaN", "1e30"] {
        let words = ["in", "--limit", limit];
        assert_complaint(&folder, &words, 2, "is no number of seconds above 0");
    }
    for out in ["no/such/out.csv", "in", ""] {
        assert_complaint(&folder, &["in", "--csv", out], 2, "cannot be written");
    }
    let words = ["in", "--compare", "no.csv"];
    assert_complaint(&folder, &words, 2, "there is no file no.csv");
}

#[test]
fn a_file_that_cannot_be_read_is_told_before_the_run() {
    let folder = batch_folder("unreadable");
    fs::create_dir(folder.join("in/folder.bin")).expect("a folder can be made");
    let complaint = "in/folder.bin cannot be read";
    assert_complaint(&folder, &["in", "--csv", "out.csv"], 2, complaint);
    assert!(!folder.join("out.csv").exists());
}

#[test]
fn the_earlier_table_is_not_replaced() {
    let folder = batch_folder("kept");
    printed(&folder, &["in", "--csv", "old.csv"], 0);
    let before = fs::read(folder.join("old.csv")).expect("a table");
    let words = ["in", "--compare", "old.csv", "--csv", "in/../old.csv"];
    assert_complaint(&folder, &words, 2, "name the same file");
    assert_eq!(fs::read(folder.join("old.csv")).expect("a table"), before);
}

#[test]
fn a_table_that_is_none_is_told_with_its_line() {
    let folder = batch_folder("tables");
    let row = "a,155,0,0,2,7,00000000000000ff\n";
    for (text, complaint) in [
        (String::new(), "line 1: the columns name,bytes,"),
        ("HD".into(), "line 1: the columns name,bytes,"),
        (
            format!("{COLUMNS}\n{row}{row}"),
            "line 3: 'a' stands a second time",
        ),
        (
            format!("{COLUMNS}\n{row}b,1\n"),
            "line 3: 2 fields instead of 7",
        ),
        (
            format!("{COLUMNS}\na,x,0,0,0,0,0\n"),
            "line 2: 'x' in the column bytes",
        ),
        (
            format!("{COLUMNS}\na,1,256,0,0,0,0\n"),
            "line 2: '256' in the column number",
        ),
        (
            format!("{COLUMNS}\na,1,0,0,0,0,xyz\n"),
            "line 2: 'xyz' in the column digest",
        ),
        (
            format!("{COLUMNS}\n\"a\nb,1\n"),
            "line 2: a quotation mark is not closed",
        ),
    ] {
        fs::write(folder.join("bad.csv"), &text).expect("a file can be written");
        assert_complaint(&folder, &["in", "--compare", "bad.csv"], 1, complaint);
    }
    fs::write(folder.join("bad.csv"), [0xff, 0xfe]).expect("a file can be written");
    assert_complaint(&folder, &["in", "--compare", "bad.csv"], 1, "it is no text");
}

#[test]
fn a_table_that_is_written_is_read_back() {
    let row = |name: &str| Row {
        name: name.into(),
        bytes: 9,
        told: None,
    };
    let rows = ["", "a\nb", "a,b", "\"", "plain"].map(row).to_vec();
    let read = parse_rows(&write_rows(&rows, false)).expect("rows");
    let mut sorted = rows.clone();
    sorted.sort_by(|one, other| one.name.cmp(&other.name));
    assert_eq!(read.into_values().collect::<Vec<_>>(), sorted);
}

/// A call that is wrong in one way: each is a fault that the second call must show.
fn faulty(kind: u8) -> SolveCall {
    match kind {
        0 => |bytes, costs, choices, work| {
            let junk = work[0]; // a point that depends on what work memory held
            let answer = solve_problem(bytes, costs, choices, work);
            costs[0] = junk;
            answer
        },
        1 => |bytes, costs, choices, work| {
            let junk = u32::from(choices[0]); // a place that depends on the junk
            let answer = solve_problem(bytes, costs, choices, work);
            Answer {
                place: junk,
                ..answer
            }
        },
        2 => |bytes, costs, choices, work| {
            let answer = solve_problem(bytes, costs, choices, work);
            costs[255] ^= 1;
            answer
        },
        3 => |bytes, costs, choices, work| {
            let answer = solve_problem(bytes, costs, choices, work);
            choices[1535] ^= 1;
            answer
        },
        _ => |bytes, costs, choices, work| {
            let answer = solve_problem(bytes, costs, choices, work);
            work[8191] = 1;
            answer
        },
    }
}

#[test]
fn the_second_call_shows_what_depends_on_junk() {
    let bytes = colours([100, 100]).encode();
    let twice = |call| {
        let mut lent = BatchBuffers::new(1);
        lent.work.fill(7);
        let single = |lent: &mut BatchBuffers| lend_single(call, lent, &bytes);
        let called = call_twice(single, &mut lent, &mut Rng::new(1), &[&bytes]);
        called.faults.into_iter().next()
    };
    assert_eq!(twice(solve_problem), None);
    for (kind, complaint) in [
        (0, "from other junk the call lists other points"),
        (1, "from other junk the call answers "),
        (2, "the call has changed costs behind the last point"),
        (3, "the call has changed choices behind the last point"),
        (4, "the call has left other work memory than it must"),
    ] {
        let found = twice(faulty(kind)).expect(complaint).complaint;
        assert!(found.starts_with(complaint), "{found}");
    }
}
