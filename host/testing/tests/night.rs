//! The night's problems: all of them through one set of buffers, and the program that measures them.

use std::fs;
use std::path::{Path, PathBuf};
use std::process::{Command, Output};

use chooser::junk::{fill_with_junk, junk_buffers};
use frontier::limits::MAX_POINTS;
use testing::night::{chosen_text, parse_expected};
use testing::owned::list_text;
use testing::places::data;
use testing::stored::{nightly, Stored, NIGHTLY};

/// Problems with at most this many complete choices are quick for any exact search.
const FEW_CHOICES: u64 = 2_500;

/// The night's problems with few choices, in their order.
fn small_problems() -> Vec<Stored> {
    let mut small = nightly();
    small.retain(|stored| stored.problem.choices() <= FEW_CHOICES);
    assert_eq!(small.len(), 56);
    small
}

#[test]
fn every_problem_is_valid_and_has_its_text() {
    let mut above_64 = 0;
    for stored in nightly() {
        let (p, n) = (stored.problem.objectives(), stored.problem.variables());
        let named = format!("_p{p}_n{n:02}_");
        assert!(stored.name.contains(&named), "{}", stored.name);
        // It asserts that the text has these sizes and as many points as it says.
        let (_, size) = stored.frontier();
        above_64 += usize::from(size > MAX_POINTS);
    }
    assert_eq!(above_64, 77);
}

#[test]
fn the_brute_force_gives_the_expected_texts_of_small_problems() {
    for small in small_problems() {
        assert_eq!(list_text(&small.bytes), small.expected, "{}", small.name);
    }
}

/// Each problem finds what the one before has left in the buffers.
#[test]
fn the_whole_night_through_one_set_of_buffers() {
    let mut lent = junk_buffers();
    for stored in nightly() {
        let text = chosen_text(&mut lent, &stored.bytes);
        assert_eq!(text, stored.expected, "{}", stored.name);
        let cleared = lent.work.iter().all(|&number| number == 0);
        assert!(cleared, "{}", stored.name);
    }
}

/// Backwards and with junk in the buffers before each call; the small ones, which are quick.
#[test]
fn small_problems_in_other_buffers() {
    let mut lent = junk_buffers();
    for small in small_problems().iter().rev() {
        fill_with_junk(&mut lent);
        let text = chosen_text(&mut lent, &small.bytes);
        assert_eq!(text, small.expected, "{}", small.name);
    }
}

#[test]
fn expected_texts_are_parsed_or_complained_about() {
    let texts = parse_expected("# a\nrefused 2 at 0\n# b\npoints 1\n0 : 0\n").expect("two texts");
    assert_eq!(texts.len(), 2);
    assert_eq!(texts["a"], "refused 2 at 0\n");
    assert_eq!(texts["b"], "points 1\n0 : 0\n");
    let complaint = |text: &str| parse_expected(text).expect_err("a complaint");
    assert!(complaint("points 0\n# a\n").starts_with("line 1: a line '# NAME' is due"));
    assert!(complaint("# a\nx\n# a\ny\n").starts_with("line 3: 'a' is named a second time"));
    assert!(complaint("# a\n# b\nx\n").starts_with("no line follows '# a'"));
}

/// A folder of its own for a test, with these small problems and expected texts for them; a line
/// of the texts can be changed.
fn folder_of(name: &str, small: &[Stored], change: impl Fn(&str) -> String) -> PathBuf {
    let folder = Path::new(env!("CARGO_TARGET_TMPDIR")).join(name);
    fs::create_dir_all(&folder).expect("a folder can be made");
    let mut expected = String::new();
    for problem in small {
        let file = folder.join(format!("{}.bin", problem.name));
        fs::write(file, &problem.bytes).expect("a file can be written");
        expected += &format!("# {}\n{}", problem.name, change(&problem.expected));
    }
    fs::write(folder.with_extension("expected"), expected).expect("a file can be written");
    folder
}

fn night(arguments: &[&str]) -> Output {
    Command::new(env!("CARGO_BIN_EXE_night"))
        .args(arguments)
        .output()
        .expect("night starts")
}

/// Asserts how the program ends, and gives its last line.
fn last_line(output: &Output, status: i32) -> String {
    let text = String::from_utf8_lossy(&output.stdout);
    let complaint = String::from_utf8_lossy(&output.stderr);
    assert_eq!(output.status.code(), Some(status), "{text}{complaint}");
    text.lines().last().unwrap_or_default().to_string()
}

fn text_of(path: &Path) -> &str {
    path.to_str().expect("a path that is text")
}

#[test]
fn a_run_counts_its_answers() {
    let small = small_problems();
    let folder = folder_of("night_right", &small[..25], str::to_owned);
    let output = night(&["--limit", "60", text_of(&folder)]);
    let last = last_line(&output, 0);
    let counted = "25 of 25 problems answered within 60 s, 25 of them compared, 0 differ, 0 ";
    assert!(last.starts_with(counted), "{last}");
    let text = String::from_utf8_lossy(&output.stdout);
    assert!(
        text.contains("\n20 of 25 done, 20 answered, 0 differ\n"),
        "{text}"
    );
}

#[test]
fn a_difference_is_told_and_gives_status_1() {
    let small = small_problems();
    let change = |text: &str| text.replacen("points 2 ", "points 3 ", 1);
    let changed = |small: &&Stored| change(&small.expected) != small.expected;
    let differ = small[..25].iter().filter(changed).count();
    assert!(differ > 0);
    let folder = folder_of("night_wrong", &small[..25], change);
    let output = night(&["--limit", "60", text_of(&folder)]);
    let last = last_line(&output, 1);
    assert!(
        last.contains(&format!(" compared, {differ} differ,")),
        "{last}"
    );
    let text = String::from_utf8_lossy(&output.stdout);
    assert!(text.contains("line 1 DIFFERS: 'points 2 "), "{text}");
}

/// Any of the problems may be too slow for this limit; that is no difference.
#[test]
fn a_problem_that_is_too_slow_is_given_up() {
    let small = small_problems();
    let folder = folder_of("night_hurried", &small[..25], str::to_owned);
    let last = last_line(&night(&["--limit", "0.000001", text_of(&folder)]), 0);
    assert!(
        last.contains(" of 25 problems answered within 0.000001 s"),
        "{last}"
    );
    assert!(last.contains(" 0 differ, 0 processes died"), "{last}");
}

#[test]
fn one_problem_is_printed() {
    let small = &small_problems()[0];
    let path = data(NIGHTLY).join(format!("{}.bin", small.name));
    let output = night(&["--one", text_of(&path)]);
    assert_eq!(String::from_utf8_lossy(&output.stdout), small.expected);
    assert_eq!(output.status.code(), Some(0));
}

/// Asserts that the program ends with status 2 and complains in these words.
fn assert_complaint(arguments: &[&str], complaint: &str) {
    let output = night(arguments);
    let text = String::from_utf8_lossy(&output.stderr);
    assert_eq!(output.status.code(), Some(2), "{arguments:?} {text}");
    assert!(text.contains(complaint), "{arguments:?} {text}");
    assert!(output.stdout.is_empty(), "{arguments:?}");
}

#[test]
fn what_cannot_be_run_is_complained_about() {
    assert_complaint(
        &["no/such/folder"],
        "the folder no/such/folder cannot be opened",
    );
    assert_complaint(
        &["--one", "no/such/file"],
        "the problem file no/such/file cannot be read",
    );
    assert_complaint(&["--one"], "usage: night");
    assert_complaint(&["--limit"], "--limit takes a number of seconds");
    for limit in ["0", "-1", "soon", "inf", "NaN"] {
        assert_complaint(&["--limit", limit], "is no number of seconds above 0");
    }
    assert_complaint(&["--quick"], "there is no option '--quick'");
    assert_complaint(&["a", "b"], "'b' is a second folder");
}

#[test]
fn bad_files_are_complained_about() {
    let small = small_problems();
    let empty = folder_of("night_empty", &[], str::to_owned);
    assert_complaint(&[text_of(&empty)], "has no problem file (NAME.bin)");
    let missing = folder_of("night_missing", &small[..2], str::to_owned);
    let file = missing.join(format!("{}.bin", small[1].name));
    fs::remove_file(&file).expect("a file that was written");
    assert_complaint(&[text_of(&missing)], "has no file");
    fs::create_dir_all(&file).expect("a folder can be made");
    assert_complaint(&[text_of(&missing)], "cannot be read");
    fs::remove_dir(&file).expect("a folder that was made");
    let bad = folder_of("night_bad", &small[..1], |text| format!("{text}# \n"));
    assert_complaint(&[text_of(&bad)], "no line follows");
}
