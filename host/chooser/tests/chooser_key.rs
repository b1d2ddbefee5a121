//! `chooser key`: keys from every form of a problem and of several files, the canonical form in a file, and refused
//! problems beside others.

use std::fs;
use std::path::Path;

use chooser::junk::Rng;
use frontier::{from_text, Problem};
use testing::canonical::{form_of, key_of};
use testing::chooser_run::json::{parse, Value};
use testing::chooser_run::{folder, run, run_with};
use testing::examples::{brimful, colours, turned};
use testing::layouts::{layouts, random_layout};
use testing::random::{damage, random_problem, Shape};
use testing::reading::read_problem;

const FORMAT: &str = include_str!("../../../docs/FORMAT.md");

/// A path as a word.
fn word(path: &Path) -> &str {
    path.to_str().expect("the folder's name is text")
}

/// The key of a problem's bytes as the command tells it, by the independent form.
fn key_text(bytes: &[u8]) -> String {
    let problem = read_problem(bytes).expect("a valid problem").problem;
    format!("{:016x}", key_of(&form_of(&problem)))
}

/// The line that is due for a file with these bytes.
fn line(bytes: &[u8], name: &str) -> String {
    format!("{}  {name}\n", key_text(bytes))
}

/// What stands in the document as printed for the example of the help.
fn documented() -> &'static str {
    let (_, rest) = FORMAT.split_once("```key\n").expect("the document has one");
    rest.split_once("```").expect("its end").0
}

#[test]
fn equal_problems_have_one_key_in_every_form() {
    let files = ["examples/firmware.txt", "examples/firmware.bin"];
    let ended = run(&["key", files[0], files[1]]).with(0);
    assert_eq!((ended.text(), &ended.err[..]), (documented(), ""));
    let bytes = fs::read("../../examples/firmware.bin").expect("it is there");
    assert_eq!(ended.text(), files.map(|file| line(&bytes, file)).concat());
    assert_eq!(
        run_with(&["key", "-"], &bytes).with(0).text(),
        line(&bytes, "-")
    );
    let text = fs::read("../../examples/queens.wcsp").expect("it is there");
    let bytes = from_text(&text).expect("a text");
    let due = line(&bytes, "examples/queens.wcsp");
    assert_eq!(run(&["key", "examples/queens.wcsp"]).with(0).text(), due);
    // Without its name it is known by its words.
    assert_eq!(
        run_with(&["key", "-"], &text).with(0).text(),
        line(&bytes, "-")
    );
}

/// A file for each of these problems, by name.
fn files(folder: &Path, problems: &[Problem]) -> Vec<String> {
    let mut names = Vec::new();
    for (number, problem) in problems.iter().enumerate() {
        let file = folder.join(format!("{number}.bin"));
        fs::write(&file, problem.encode()).expect("a file is written");
        names.push(word(&file).to_string());
    }
    names
}

#[test]
fn layouts_have_one_key_and_one_form() {
    let mut rng = Rng::new(3);
    let folder = folder("key_layouts");
    let form = folder.join("form.bin");
    for case in 0..20 {
        let shapes = [Shape::small(), Shape::wide()];
        let problem = random_problem(&mut rng, &shapes[case % 2]);
        let names = files(&folder, &layouts(&mut rng, &problem));
        let mut words = vec!["key"];
        words.extend(names.iter().map(String::as_str));
        let due: String = names
            .iter()
            .map(|name| line(&problem.encode(), name))
            .collect();
        assert_eq!(run(&words).with(0).text(), due, "case {case}");
        for name in &names {
            let ended = run(&["key", name, "-o", word(&form)]).with(0);
            assert_eq!(ended.text(), line(&problem.encode(), name));
            assert!(fs::read(&form).expect("it was written") == form_of(&problem));
        }
    }
}

/// Names and comments of a text are no part of a problem; a cost more is.
#[test]
fn names_do_not_count_and_costs_do() {
    let key = |text: &str| run_with(&["key", "-"], text.as_bytes()).with(0).out;
    let one = "costs size <= 9\nmodule a: x, y\ntable size over a:\n  x y\n  1 2\n";
    let other =
        "# other names\ncosts time <= 9\nmodule b: z, w\ntable time over b:\n  w z\n  2 1\n";
    assert_eq!(key(one), key(other));
    assert_ne!(key(one), key(&one.replace("1 2", "1 3")));
    assert_ne!(key(one), key(&one.replace("<= 9", "<= 8")));
    assert_eq!(key(one), key(&one.replace("<= 9", "< 10")));
}

#[test]
fn the_form_goes_to_a_file_or_to_standard_output() {
    let file = folder("key_form").join("form.bin");
    let due = form_of(&turned());
    let ended = run_with(&["key", "-", "-o", word(&file)], &turned().encode()).with(0);
    assert_eq!(ended.text(), line(&due, "-"));
    assert!(fs::read(&file).expect("it was written") == due);
    // The form is a problem, and its own form; the old file is replaced.
    let ended = run(&["key", word(&file), "-o", word(&file)]).with(0);
    assert_eq!(ended.text(), line(&due, word(&file)));
    assert!(fs::read(&file).expect("it is there") == due);
    assert_eq!(
        run_with(&["key", "-", "-o", "-"], &turned().encode())
            .with(0)
            .out,
        due
    );
    let full = random_layout(&mut Rng::new(1), &brimful());
    let ended = run_with(&["key", "-", "-o", "-"], &full.encode()).with(0);
    assert!(ended.out == form_of(&full));
    let beside = fs::read_dir(file.parent().expect("it has one")).expect("a folder");
    assert_eq!(beside.count(), 1, "nothing is left beside the form");
}

#[test]
fn an_error_leaves_the_old_form() {
    let file = folder("key_kept").join("form.bin");
    fs::write(&file, "old").expect("a file is written");
    let cut = &colours([9, 9]).encode()[..100];
    run_with(&["key", "-", "-o", word(&file)], cut)
        .with(1)
        .tells(&["standard input is refused with number 2 (cut short)"]);
    run_with(&["key", "-", "-o", word(&file)], b"costs a\nmodule\n")
        .with(1)
        .tells(&["standard input:2:7: "]);
    assert_eq!(fs::read(&file).expect("it is there"), b"old");
    let ended = run(&["key", "examples/firmware.bin", "-o", "none/form.bin"]).with(2);
    assert_eq!(ended.out, b"");
    ended.tells(&["'none/form.bin' cannot be written"]);
}

#[test]
fn a_refused_problem_is_told_beside_the_others() {
    let folder = folder("key_refused");
    let good = folder.join("good.bin");
    let bad = folder.join("bad.bin");
    let bytes = colours([100, 100]).encode();
    fs::write(&good, &bytes).expect("a file is written");
    fs::write(&bad, &bytes[..154]).expect("a file is written");
    let ended = run(&["key", word(&bad), word(&good)]).with(1);
    assert_eq!(ended.text(), line(&bytes, word(&good)));
    let solved = run(&["solve", word(&bad)]).with(1);
    assert_eq!(ended.err, solved.err);
    let ended = run(&["key", "--json", word(&bad), word(&good)]).with(1);
    assert_eq!(ended.err, "");
    let told = parse(ended.text());
    let [first, second] = told.at("problems").items() else {
        panic!("two problems: {told:?}");
    };
    let solved = run(&["solve", "--json", word(&bad)]).with(1);
    assert_eq!(first.at("refused"), parse(solved.text()).at("refused"));
    assert_eq!(first.at("file").text(), word(&bad));
    assert_eq!(first.at("key"), &Value::Null);
    assert_eq!(second.at("file").text(), word(&good));
    assert_eq!(second.at("key").text(), key_text(&bytes));
    assert_eq!(second.at("refused"), &Value::Null);
}

#[test]
fn damaged_problems_are_told_as_solve_tells_them() {
    let mut rng = Rng::new(12);
    let mut refused = 0;
    for _ in 0..200 {
        let mut bytes = colours([100, 100]).encode();
        damage(&mut rng, &mut bytes);
        let solved = run_with(&["solve", "-"], &bytes);
        if solved.status == Some(1) {
            let ended = run_with(&["key", "-"], &bytes).with(1);
            assert_eq!((ended.out, ended.err), (Vec::new(), solved.err));
            refused += 1;
        }
    }
    assert!(refused > 100, "{refused}");
}

/// A file that fails ends the run, and no key is printed, whichever file it is.
#[test]
fn a_file_that_fails_ends_the_run() {
    let file = folder("key_fails").join("fault.txt");
    fs::write(&file, "costs a\nmodule\n").expect("a file is written");
    for (name, status, part) in [
        ("examples/none.bin", 2, "there is no file examples/none.bin"),
        (word(&file), 1, "fault.txt:2:7: "),
    ] {
        for words in [
            &["key", "examples/firmware.bin", name][..],
            &["key", name, "examples/firmware.bin", "--json"],
        ] {
            let ended = run(words).with(status);
            assert_eq!(ended.out, b"");
            ended.tells(&[part]);
        }
    }
}

#[test]
fn words_that_do_not_go_together_are_misuse() {
    let cases = [
        (&["key"][..], "FILE is missing"),
        (&["key", "a", "-o"], "behind -o its FORM is due"),
        (
            &["key", "-", "a", "-"],
            "'-' stands twice, and standard input can be read once",
        ),
        (
            &["key", "a", "b", "-o", "c"],
            "-o takes the form of one FILE, and 'b' is a second",
        ),
        (
            &["key", "a", "-o", "-", "--json"],
            "'-o -' and --json both take standard output",
        ),
        (&["key", "a", "-o", "examples"], "it is a folder"),
        (&["key", "a", "--jsn"], "did you mean '--json'?"),
    ];
    for (words, part) in cases {
        let ended = run(words).with(2).tells(&["chooser: ", part]);
        assert_eq!(ended.out, b"");
    }
}
