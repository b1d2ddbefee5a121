//! The program that memcheck watches: what it prints and how it ends.

use std::process::{Command, Output};

fn run(arguments: &[&str]) -> Output {
    Command::new(env!("CARGO_BIN_EXE_mixed_cases"))
        .args(arguments)
        .output()
        .expect("mixed_cases starts")
}

#[test]
fn the_last_line_counts_the_cases() {
    let output = run(&["450"]);
    let text = String::from_utf8(output.stdout).expect("text");
    assert_eq!(output.status.code(), Some(0), "{text}");
    let progress = "200 of 450 cases done\n400 of 450 cases done\n";
    assert_eq!(text, format!("{progress}450 cases agree\n"));
}

#[test]
fn bad_arguments_give_the_usage() {
    let bad: [&[&str]; 5] = [&["0"], &["-1"], &["many"], &[""], &["1", "2"]];
    for arguments in bad {
        let output = run(arguments);
        let complaint = String::from_utf8(output.stderr).expect("text");
        assert_eq!(output.status.code(), Some(2), "{arguments:?}");
        assert!(complaint.contains("usage: mixed_cases [N]"), "{complaint}");
        assert!(output.stdout.is_empty(), "{arguments:?}");
    }
}
