//! Files that are missing, unreadable, empty, huge, cut off or folders, and outputs that end early:
//! `chooser` says what is wrong, and loses nothing.

use std::fs::{self, File, OpenOptions};
use std::io::Write;
use std::os::unix::fs::{symlink, PermissionsExt};
use std::path::Path;
use std::process::{Command, Stdio};
use std::time::{Duration, Instant};

use testing::chooser_run::{chooser, folder, run, run_with, Apart};
use testing::examples::{colours, staircase};
use testing::owned::list_text;
use testing::places::root;

/// A path as a word.
fn word(path: &Path) -> &str {
    path.to_str().expect("the folder's name is text")
}

/// Every subcommand that reads a file, with words for all that it needs besides.
fn reading(file: &str) -> Vec<Vec<&str>> {
    vec![
        vec!["solve", file],
        vec!["cut", file, "01"],
        vec!["bound", file, "-"],
        vec!["pack", file],
        vec!["unpack", file],
        vec!["wcsp", file],
        vec!["key", file],
    ]
}

#[test]
fn a_missing_file_is_told_by_every_subcommand() {
    for words in reading("examples/none.bin") {
        let ended = run(&words).with(2);
        assert_eq!(ended.out, b"");
        ended.tells(&["there is no file examples/none.bin; look at the name"]);
    }
    run(&["solve", ""])
        .with(2)
        .tells(&["the file's name is empty"]);
}

#[test]
fn a_folder_is_told_by_every_subcommand() {
    for words in reading("examples") {
        run(&words)
            .with(2)
            .tells(&["examples is a folder; name a file in it"]);
    }
}

#[test]
fn a_file_that_cannot_be_read_is_told() {
    // Reading this file of Linux fails for everybody, also for root.
    run(&["solve", "/proc/self/mem"])
        .with(2)
        .tells(&["/proc/self/mem cannot be read: "]);
    let file = folder("unreadable").join("problem.bin");
    fs::write(&file, colours([100, 100]).encode()).expect("the file is written");
    fs::set_permissions(&file, fs::Permissions::from_mode(0o000)).expect("it is mine");
    let ended = run(&["solve", word(&file)]);
    // Root may read it all the same, and then gets its answer.
    match File::open(&file) {
        Ok(_) => ended.with(0),
        Err(_) => ended.with(2).tells(&["may not be read", "chmod u+r"]),
    };
}

#[test]
fn an_empty_file_is_told() {
    let file = folder("empty").join("problem");
    fs::write(&file, "").expect("the file is written");
    for words in reading(word(&file)) {
        let part = match words[0] {
            "pack" => ":1:1: the text ends",
            _ => "the file is empty",
        };
        run(&words).with(1).tells(&[part]);
    }
}

#[test]
fn a_huge_file_is_told_without_reading_it() {
    let folder = folder("huge");
    let [binary, text] = ["HD", "# "].map(|start| {
        let file = folder.join(start.trim_end());
        fs::write(&file, start).expect("the file is written");
        let opened = OpenOptions::new().write(true).open(&file);
        // The file has a length, but its zeros take no room.
        opened
            .and_then(|file| file.set_len(1 << 40))
            .expect("it gets its length");
        file
    });
    let start = Instant::now();
    for words in reading(word(&binary))
        .iter()
        .filter(|words| words[0] != "pack")
    {
        run(words)
            .with(1)
            .tells(&["number 1 (oversize) at byte 0", "more than 60000 bytes"]);
    }
    for words in reading(word(&text))
        .iter()
        .filter(|words| words[0] != "unpack")
    {
        run(words).with(1).tells(&["has more than 8000000 bytes"]);
    }
    assert!(start.elapsed() < Duration::from_secs(20));
}

#[test]
fn a_file_cut_off_anywhere_is_refused_where_the_cut_is() {
    let bytes = colours([100, 100]).encode();
    for length in 0..bytes.len() {
        let due = list_text(&bytes[..length]);
        let place = due.trim_end().rsplit(' ').next().expect("it names a place");
        let ended = run_with(&["solve", "-"], &bytes[..length]).with(1);
        ended.tells(&[&format!("number 2 (cut short) at byte {place}\n")]);
    }
}

#[test]
fn an_output_file_is_replaced_whole_or_not_at_all() {
    let folder = folder("output");
    let [text, packed] = ["text.txt", "packed.bin"].map(|name| folder.join(name));
    run(&["unpack", "examples/firmware.bin", "-o", word(&text)]).with(0);
    run(&["pack", word(&text), "-o", word(&packed)]).with(0);
    let due = fs::read(root().join("examples/firmware.bin")).expect("it is there");
    assert_eq!(fs::read(&packed).expect("it was written"), due);
    // A fault leaves the old file, and nothing beside it.
    fs::write(&text, "costs a\nmodule\n").expect("the text is written");
    run(&["pack", word(&text), "-o", word(&packed)])
        .with(1)
        .tells(&[":2:7: "]);
    assert_eq!(fs::read(&packed).expect("it is still there"), due);
    run(&["unpack", word(&text), "-o", word(&packed)]).with(1);
    assert_eq!(fs::read(&packed).expect("it is still there"), due);
    assert_eq!(fs::read_dir(&folder).expect("it is there").count(), 2);
}

#[test]
fn a_disk_that_is_full_leaves_the_old_file() {
    let folder = folder("full");
    let packed = folder.join("packed.bin");
    fs::write(&packed, "old").expect("the file is written");
    // No file may grow in this shell, and what tries is told so instead of being killed.
    let script = "trap '' XFSZ; ulimit -f 0; exec \"$0\" pack examples/firmware.txt -o \"$1\"";
    let ended = Command::new("sh")
        .args(["-c", script, word(&chooser()), word(&packed)])
        .current_dir(root())
        .output()
        .expect("a shell runs");
    let told = String::from_utf8_lossy(&ended.stderr);
    assert_eq!(ended.status.code(), Some(2), "{told}");
    assert!(told.contains("nothing in it has changed"), "{told}");
    assert_eq!(fs::read(&packed).expect("it is still there"), b"old");
    assert_eq!(fs::read_dir(&folder).expect("it is there").count(), 1);
}

#[test]
fn an_output_file_keeps_its_permissions_and_its_links() {
    let folder = Apart::new("links");
    let [target, link] = ["target.bin", "link.bin"].map(|name| folder.join(name));
    fs::write(&target, "old").expect("the file is written");
    fs::set_permissions(&target, fs::Permissions::from_mode(0o640)).expect("it is mine");
    symlink(&target, &link).expect("the link is made");
    run(&["pack", "examples/firmware.txt", "-o", word(&link)]).with(0);
    assert!(fs::symlink_metadata(&link)
        .expect("it is there")
        .is_symlink());
    let written = fs::metadata(&target).expect("it is there");
    assert_eq!(written.permissions().mode() & 0o777, 0o640);
    let due = fs::read(root().join("examples/firmware.bin")).expect("it is there");
    assert_eq!(fs::read(&target).expect("it was written"), due);
}

#[test]
fn an_output_that_cannot_be_written_is_told() {
    let folder = folder("unwritable");
    let pack = |output: &str| run(&["pack", "examples/firmware.txt", "-o", output]);
    pack(word(&folder))
        .with(2)
        .tells(&["is a folder; name a file in it"]);
    let nowhere = folder.join("none/packed.bin");
    pack(word(&nowhere))
        .with(2)
        .tells(&["none/packed.bin cannot be written: "]);
    pack("").with(2).tells(&["cannot be written"]);
    pack("/dev/null").with(0);
    assert_eq!(pack("-").with(0).out.len(), 187);
    let full = OpenOptions::new().write(true).open("/dev/full");
    let ended = Command::new(chooser())
        .args(["solve", "examples/firmware.txt"])
        .current_dir(root())
        .stdout(full.expect("Linux has it"))
        .output()
        .expect("the command runs");
    assert_eq!(ended.status.code(), Some(2));
    let told = String::from_utf8_lossy(&ended.stderr).into_owned();
    assert!(
        told.contains("standard output cannot be written: "),
        "{told}"
    );
}

/// Starts the command, closes its outputs as asked, and only then hands it this problem; its status,
/// and what it said on standard error if that was open.
fn run_closed(words: &[&str], close_error: bool, problem: &[u8]) -> (Option<i32>, String) {
    let mut process = Command::new(chooser())
        .args(words)
        .stdin(Stdio::piped())
        .stdout(Stdio::piped())
        .stderr(Stdio::piped())
        .spawn()
        .expect("the command starts");
    drop(process.stdout.take());
    if close_error {
        drop(process.stderr.take());
    }
    let mut stdin = process.stdin.take().expect("standard input is piped");
    stdin.write_all(problem).expect("the command reads");
    drop(stdin);
    let ended = process.wait_with_output().expect("the command ends");
    let told = String::from_utf8_lossy(&ended.stderr).into_owned();
    (ended.status.code(), told)
}

#[test]
fn a_reader_that_ends_early_is_no_error() {
    let bytes = staircase([63, 200]).encode();
    for words in [
        &["solve", "-"][..],
        &["unpack", "-"],
        &["solve", "-", "--json"],
    ] {
        assert_eq!(run_closed(words, false, &bytes), (Some(0), String::new()));
    }
    let refused = run_closed(&["solve", "-", "--json"], false, &bytes[..9]);
    assert_eq!(refused, (Some(1), String::new()));
}

#[test]
fn a_closed_standard_error_is_no_crash() {
    assert_eq!(run_closed(&["solve", "-"], true, b"HD").0, Some(1));
    assert_eq!(run_closed(&["solve", "-"], true, b"costs").0, Some(1));
}
