//! The program `speed` and its parts: cases, hex, the table, what toulbar2 prints, the program's ends.

use std::env;
use std::fs;
use std::path::Path;
use std::process::{Command, Output};
use std::time::Duration;

use chooser::hex::{from_hex, to_hex};
use frontier::limits::MAX_VARIABLES;
use frontier::Problem;
use testing::reading::read_problem;
use testing::speed::cases::family_of;
use testing::speed::growth::growth_cases;
use testing::speed::nights::night_cases;
use testing::speed::table::table_text;
use testing::speed::toulbar2::{
    choice_printed, least_cost_listed, least_cost_printed, own_time_printed,
};

fn speed(arguments: &[&str]) -> Output {
    let program = env!("CARGO_BIN_EXE_speed");
    Command::new(program)
        .args(arguments)
        .output()
        .expect("speed starts")
}

fn text_of(bytes: &[u8]) -> String {
    String::from_utf8_lossy(bytes).into_owned()
}

#[test]
fn a_family_is_the_first_part_of_a_name_that_is_no_number() {
    assert_eq!(family_of("017_p3_n22_share"), "p3");
    assert_eq!(family_of("comp_x_5"), "comp");
    assert_eq!(family_of("12"), "12");
}

#[test]
fn hex_is_read_as_it_is_written() {
    let bytes: Vec<u8> = (0..=255).collect();
    assert_eq!(from_hex(&to_hex(&bytes)), Some(bytes));
    assert_eq!(from_hex("0g"), None);
    assert_eq!(from_hex("012"), None);
}

#[test]
fn columns_stand_under_each_other() {
    let cells = |row: [&str; 2]| row.map(String::from).to_vec();
    let text = table_text(
        &cells(["Family", "n"]),
        &[cells(["p1", "33"]), cells(["all", "1"])],
    );
    let expected = "\
| Family |  n |
|--------|---:|
| p1     | 33 |
| all    |  1 |
";
    assert_eq!(text, expected);
}

/// Generated twice they are the same, and the sizes are those of their rows.
#[test]
fn generated_problems_are_valid_and_always_the_same() {
    let (cases, again) = (growth_cases(), growth_cases());
    assert!(cases.len() >= 60, "{}", cases.len());
    for (case, again) in cases.iter().zip(&again) {
        assert_eq!(case.bytes, again.bytes, "{}", case.name);
        let problem = read_problem(&case.bytes).expect("a valid problem").problem;
        let sizes = [
            format!("n={}", problem.variables()),
            format!("d={}", problem.domains[0]),
            format!("p={}", problem.objectives()),
        ];
        assert!(sizes.contains(&case.family), "{} {sizes:?}", case.name);
    }
}

#[test]
fn least_costs_are_found_in_texts() {
    let printed = "Read 3 variables\nOptimum: 27 in 3 backtracks and 5 nodes\nend.\n";
    assert_eq!(least_cost_printed(printed).as_deref(), Some("27"));
    let none = least_cost_printed("No solution in 0 backtracks\n");
    assert_eq!(none.as_deref(), Some("none"));
    assert_eq!(least_cost_printed("Time limit expired\n"), None);
    let solutions = "New solution: 30 (0 backtracks)\n 0 0\nNew solution: 27 (1)\n 1 12\nOptimum\n";
    assert_eq!(choice_printed(solutions), Some(vec![1, 12]));
    assert_eq!(choice_printed(printed), None);
    let own = own_time_printed("Read 3 variables\nPreprocessing time: 0.000395 seconds.\n");
    assert_eq!(own, Some(Duration::from_micros(395)));
    assert_eq!(own_time_printed("Preprocessing time: never\n"), None);
    let listed = least_cost_listed("points 1 objectives 1 variables 2\n27 : 0 1\n");
    assert_eq!(listed.as_deref(), Some("27"));
    assert_eq!(
        least_cost_listed("points 0 objectives 1 variables 2\n"),
        none
    );
    assert_eq!(least_cost_listed("refused 15 at 0\n"), None);
}

#[test]
fn a_family_is_measured_and_compared() {
    let output = speed(&["--plain-only", "--only", "tight"]);
    let text = text_of(&output.stdout);
    assert_eq!(output.status.code(), Some(0), "{text}");
    assert!(text.contains("| tight  |       12 |"), "{text}");
    assert!(!text.contains("Chooser"), "{text}");
    let last = text.lines().last().unwrap_or_default();
    assert!(last.starts_with("12 problems, "), "{text}");
    assert!(last.ends_with(" 0 faults"), "{text}");
    assert!(output.stderr.is_empty(), "no progress without a terminal");
}

/// The chooser's answers may be too slow for this limit; that is no fault.
#[test]
fn the_chooser_is_measured_beside_plain_rust() {
    let output = speed(&["--only", "p1", "--limit", "0.05", "--settings", "rest=no"]);
    let text = text_of(&output.stdout);
    assert_eq!(output.status.code(), Some(0), "{text}");
    assert!(text.contains("| Chooser over |"), "{text}");
    assert!(text.contains(" Ratio |"), "{text}");
    assert!(text.contains("given up after 0.05 s"), "{text}");
    let last = text.lines().last().unwrap_or_default();
    assert!(last.starts_with("33 problems, "), "{text}");
    assert!(last.ends_with(" 0 faults"), "{text}");
}

/// Against itself the chooser has the same answers, and there are no nodes to tell.
#[test]
fn the_chooser_is_measured_against_another_build() {
    let program = env!("CARGO_BIN_EXE_speed");
    let output = speed(&["--only", "tight", "--against", program]);
    let text = text_of(&output.stdout);
    assert_eq!(output.status.code(), Some(0), "{text}");
    assert!(text.contains("| Other over |"), "{text}");
    assert!(text.contains("speed over the other library's"), "{text}");
    assert!(!text.to_lowercase().contains("nodes"), "{text}");
    let last = text.lines().last().unwrap_or_default();
    assert_eq!(last, "12 problems, 24 answers compared, 0 faults", "{text}");
}

/// Against itself with ceilings one larger the chooser has other answers, since the family's ceilings are tight.
#[test]
fn another_build_may_be_handed_ceilings_one_larger() {
    let program = env!("CARGO_BIN_EXE_speed");
    let output = speed(&["--only", "tight", "--against", program, "--raised"]);
    let text = text_of(&output.stdout);
    assert_eq!(output.status.code(), Some(1), "{text}");
    assert!(
        text.contains("The other library is handed each ceiling one larger."),
        "{text}"
    );
    let fault = "tight_m_4: the other library: line 1 DIFFERS: 'points 2 ";
    assert!(text.contains(fault), "{text}");
    let last = text.lines().last().unwrap_or_default();
    assert_eq!(last, "12 problems, 24 answers compared, 4 faults", "{text}");
}

/// A stand-in for toulbar2 that always finds the same optimum.
#[cfg(unix)]
#[test]
fn toulbar2_is_measured_where_it_is_installed() {
    use std::os::unix::fs::PermissionsExt;
    let folder = Path::new(env!("CARGO_TARGET_TMPDIR")).join("toulbar2");
    fs::create_dir_all(&folder).expect("a folder can be made");
    let program = folder.join("toulbar2");
    let script = "#!/bin/sh\necho 'Optimum: 4000000000 in 1 backtracks'\n";
    fs::write(&program, script).expect("a file can be written");
    fs::set_permissions(&program, fs::Permissions::from_mode(0o755)).expect("it is our file");
    let path = env::var("PATH").unwrap_or_default();
    let output = Command::new(env!("CARGO_BIN_EXE_speed"))
        .args(["--plain-only", "--only", "ties"])
        .env("PATH", format!("{}:{path}", folder.display()))
        .output()
        .expect("speed starts");
    let text = text_of(&output.stdout);
    assert_eq!(output.status.code(), Some(1), "{text}");
    assert!(text.contains("| toulbar2 on |"), "{text}");
    let fault = "toulbar2: line 1 DIFFERS: '4000000000' instead of '";
    assert!(text.contains(fault), "{text}");
}

/// A night of 380 problems and 60 of the largest size, which are what they are called.
#[test]
fn generated_nights_are_valid_and_always_the_same() {
    let (cases, again, other) = (night_cases(5), night_cases(5), night_cases(6));
    let is_largest = |problem: &Problem| {
        problem.variables() == MAX_VARIABLES && problem.domains.iter().all(|&size| size == 8)
    };
    let mut largest = 0;
    for (case, again) in cases.iter().zip(&again) {
        assert_eq!(case.bytes, again.bytes, "{}", case.name);
        let problem = read_problem(&case.bytes).expect("a valid problem").problem;
        let is_called = case.family == "largest";
        largest += usize::from(is_called);
        assert!(is_largest(&problem) || !is_called, "{}", case.name);
    }
    assert_eq!((cases.len(), largest), (440, 60));
    assert!(cases
        .iter()
        .zip(&other)
        .any(|(one, other)| one.bytes != other.bytes));
}

#[test]
fn help_names_the_options() {
    let output = speed(&["--help"]);
    let text = text_of(&output.stdout);
    assert_eq!(output.status.code(), Some(0), "{text}");
    for option in [
        "--limit",
        "--only",
        "--sets",
        "--growth",
        "--generated",
        "--against",
        "--raised",
        "numbers=N",
    ] {
        assert!(text.contains(option), "{option}");
    }
}

#[test]
fn what_cannot_be_run_is_complained_about() {
    let complaints: [(&[&str], &str); 11] = [
        (
            &["--only", "nothing"],
            "there is no family 'nothing'; the families are comp, ",
        ),
        (&["--only"], "--only takes a family"),
        (&["--limit", "0"], "'0' is no number of seconds above 0"),
        (
            &["--settings", "sums=9"],
            "'sums=9' takes a number from 1 to 4",
        ),
        (&["--settings"], "--settings takes settings"),
        (&["--generated", "x"], "--generated takes a number from 0"),
        (&["--against"], "--against takes a program"),
        (
            &["--against", "no/such/program"],
            "the program no/such/program cannot start",
        ),
        (
            &["--plain-only", "--against", "speed"],
            "with --plain-only nothing is measured against another library",
        ),
        (
            &["--raised"],
            "--raised is for another library; name it with --against",
        ),
        (&["--fast"], "there is no option '--fast'"),
    ];
    for (arguments, complaint) in complaints {
        let output = speed(arguments);
        let text = text_of(&output.stderr);
        assert_eq!(output.status.code(), Some(2), "{arguments:?} {text}");
        assert!(text.contains(complaint), "{arguments:?} {text}");
        assert!(output.stdout.is_empty(), "{arguments:?}");
    }
}
