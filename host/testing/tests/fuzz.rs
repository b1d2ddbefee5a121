//! The fuzzing program: what it tells of a run, and that memory between closed pages shows every
//! byte that is touched beside a buffer.

use std::env;
use std::hint::black_box;
use std::os::unix::process::ExitStatusExt;
use std::process::{Command, Output, Stdio};
use std::thread;
use std::time::Duration;

use testing::guard::{End, Pages};
use testing::places::root;

/// SIGSEGV of Linux.
const VIOLATION: i32 = 11;

fn fuzz(arguments: &[&str]) -> Command {
    let mut command = Command::new(env!("CARGO_BIN_EXE_fuzz"));
    command.args(arguments);
    command
}

fn run(arguments: &[&str]) -> (Option<i32>, String, String) {
    ended(fuzz(arguments).output().expect("fuzz starts"))
}

/// The status, and what was printed.
fn ended(output: Output) -> (Option<i32>, String, String) {
    let [out, err] = [output.stdout, output.stderr].map(|text| String::from_utf8(text).unwrap());
    (output.status.code(), out, err)
}

#[test]
fn four_thousand_inputs_touch_nothing_outside() {
    let (status, text, complaint) = run(&["4000"]);
    assert_eq!((status, complaint.as_str()), (Some(0), ""), "{text}");
    assert!(text.starts_with("4000 inputs (mixed cases, from seed 0 on), "));
    assert!(text.contains("\nevery input against the upper pages, 1000 also against the lower, "));
    // Every number that the plain call can give, but for the rare 1.
    for number in [2, 3, 4, 5, 6, 7, 8, 9, 10, 11, 12, 15] {
        assert!(text.contains(&format!(" {number}: ")), "{number}: {text}");
    }
    assert!(text.ends_with("every answer as the brute force's\n"));
}

#[test]
fn a_seed_starts_the_run_elsewhere() {
    let (status, text, _) = run(&["--seed", "123456789", "10"]);
    assert_eq!(status, Some(0));
    assert!(
        text.starts_with("10 inputs (mixed cases, from seed 123456789 on)"),
        "{text}"
    );
}

#[test]
fn bad_arguments_give_the_usage() {
    let bad: [&[&str]; 6] = [
        &["0"],
        &["many"],
        &["1", "2"],
        &["--seed"],
        &["--seed", "x"],
        &["--seed", "18446744073709551615", "1"],
    ];
    for arguments in bad {
        let (status, text, complaint) = run(arguments);
        assert_eq!((status, text.as_str()), (Some(2), ""), "{arguments:?}");
        assert!(complaint.contains("usage: fuzz"), "{complaint}");
    }
}

#[test]
#[cfg_attr(
    not(has_libfuzzer),
    ignore = "clang or its libFuzzer was not installed when this was built"
)]
fn libfuzzer_finds_nothing_in_two_seconds() {
    let script = root().join(".ci/libfuzzer");
    let output = Command::new("bash").arg(script).arg("2").output();
    let output = output.expect("bash starts");
    let text = String::from_utf8_lossy(&output.stdout);
    assert_eq!(output.status.code(), Some(0), "{text}");
    assert!(text.ends_with("nothing found in 2 s\n"), "{text}");
}

/// Starts a run that would take hours, sends it a signal, and tells how it ends.
fn signalled(signal: &str) -> (Option<i32>, String, String) {
    let mut process = fuzz(&["--seed", "700", "100000000"])
        .stderr(Stdio::piped())
        .stdout(Stdio::piped())
        .spawn()
        .expect("fuzz starts");
    thread::sleep(Duration::from_millis(500));
    let id = process.id().to_string();
    let sent = Command::new("kill").args([signal, &id]).status();
    if !sent.is_ok_and(|status| status.success()) {
        process.kill().expect("a process that was started");
        panic!("the signal cannot be sent");
    }
    ended(process.wait_with_output().expect("fuzz ends"))
}

#[test]
fn a_signal_is_told_with_the_seed() {
    let (status, _, complaint) = signalled("-SEGV");
    assert_eq!(status, Some(1), "{complaint}");
    assert!(complaint.contains("fuzz: seed "), "{complaint}");
    assert!(complaint.contains("ended by signal 11 "), "{complaint}");
}

#[test]
fn a_run_that_is_stopped_says_what_it_ran() {
    let (status, text, complaint) = signalled("-INT");
    assert_eq!(status, Some(2), "{complaint}");
    let (inputs, _) = text.split_once(" inputs (").expect("a summary");
    let told = format!("fuzz: stopped after {inputs} of 100000000 inputs\n");
    assert_eq!(complaint, told);
}

#[test]
fn a_changed_byte_beside_a_buffer_is_found() {
    for (end, beside) in [(End::Upper, -1), (End::Lower, 3)] {
        let mut pages = Pages::new(100).expect("pages");
        let first = pages.lend(&[1_u8, 2, 3], end).as_mut_ptr();
        let mut back = [0_u8; 3];
        assert_eq!(pages.take_back(&mut back), Ok(()));
        assert_eq!(back, [1, 2, 3]);
        // SAFETY: a byte of the same pages, beside the buffer.
        unsafe { *first.offset(beside) = 0 };
        let complaint = pages.take_back(&mut back).expect_err("a complaint");
        assert_eq!(complaint, "has a changed byte beside it");
    }
}

#[test]
fn a_change_of_what_is_only_read_is_found() {
    let mut pages = Pages::new(100).expect("pages");
    pages.lend(&[7_u32; 5], End::Upper);
    assert_eq!(pages.check_unchanged(&[7_u32; 5]), Ok(()));
    pages.lend(&[7_u32; 5], End::Lower)[4] = 8;
    let complaint = pages.check_unchanged(&[7_u32; 5]).expect_err("changed");
    assert!(complaint.starts_with("was changed"));
}

/// Set for a process that is to touch a closed page, or none.
const TOUCH: &str = "FUZZ_TEST_TOUCH";

/// Reads the byte so far behind the first one of a buffer of three.
fn touch(end: End, beside: isize) {
    let mut pages = Pages::new(100).expect("pages");
    let first = pages.lend(&[1_u8, 2, 3], end).as_ptr();
    // SAFETY: none, since this is what must end the process.
    black_box(unsafe { first.offset(beside).read_volatile() });
}

/// This program again, with one test only, as the process that touches a byte.
fn touching(test: &str, end: &str) -> Output {
    Command::new(env::current_exe().expect("this test has a file"))
        .args(["--exact", test])
        .env(TOUCH, end)
        .output()
        .expect("this test starts again")
}

#[test]
fn a_byte_of_a_closed_page_ends_the_process() {
    match env::var(TOUCH).as_deref() {
        Ok("upper") => return touch(End::Upper, 3),
        Ok("lower") => return touch(End::Lower, -1),
        Ok(_) => return touch(End::Upper, 2),
        Err(_) => {} // not started again: this is the test
    }
    let ended = |end: &str| touching("a_byte_of_a_closed_page_ends_the_process", end).status;
    for end in ["upper", "lower"] {
        assert_eq!(ended(end).signal(), Some(VIOLATION), "{end}");
    }
    assert_eq!(ended("neither").code(), Some(0));
}
