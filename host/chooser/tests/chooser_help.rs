//! Help and words: each help fits a screen, its examples run, and wrong words are told.

use std::env;
use std::os::unix::fs::symlink;
use std::process::Command;

use testing::chooser_run::{chooser, run, subcommands, Apart};
use testing::places::root;

/// All helps: that of the command and those of the subcommands.
fn helps() -> Vec<String> {
    let mut helps = vec![run(&["--help"]).with(0).text().to_string()];
    for name in subcommands() {
        helps.push(run(&[&name, "--help"]).with(0).text().to_string());
    }
    helps
}

#[test]
fn all_subcommands_are_listed() {
    let listed = subcommands();
    for name in [
        "solve", "cut", "bound", "pack", "unpack", "wcsp", "key", "plot", "batch", "help",
    ] {
        assert!(
            listed.iter().any(|listed| listed == name),
            "{name}: {listed:?}"
        );
    }
}

#[test]
fn every_help_fits_a_screen() {
    for help in helps() {
        assert!(help.starts_with("usage: chooser "), "{help}");
        assert!(
            help.lines().count() <= 24,
            "{} lines: {help}",
            help.lines().count()
        );
        for line in help.lines() {
            assert!(line.chars().count() <= 80, "{line}");
        }
    }
}

#[test]
fn help_is_the_same_whichever_way_it_is_asked_for() {
    for name in subcommands() {
        let due = run(&[&name, "--help"]).with(0).out;
        assert_eq!(run(&["help", &name]).with(0).out, due);
        assert_eq!(run(&[&name, "-h"]).with(0).out, due);
        assert_eq!(run(&[&name, "some", "--help"]).with(0).out, due);
    }
    let due = run(&["--help"]).with(0).out;
    assert_eq!(run(&["-h"]).with(0).out, due);
    assert_eq!(run(&["help"]).with(0).out, due);
}

/// The command lines that stand as examples in a help.
fn examples(help: &str) -> Vec<String> {
    let (_, examples) = help
        .split_once("\nExample:\n")
        .expect("there is an example");
    let lines = examples.lines().map(|line| line.trim().to_string());
    lines.collect()
}

#[test]
fn the_examples_run_as_they_are_pasted() {
    // A folder that looks like the repository's root, so that what examples write goes there.
    let folder = Apart::new("examples");
    let root = root().canonicalize().expect("the root is there");
    for name in ["examples", "host"] {
        symlink(root.join(name), folder.join(name)).expect("a link is made");
    }
    let chooser = chooser();
    let programs = chooser.parent().expect("it is in a folder");
    let path = env::var("PATH").unwrap_or_default();
    let path = format!("{}:{path}", programs.display());
    for line in helps().iter().flat_map(|help| examples(help)) {
        assert!(line.starts_with("chooser "), "{line}");
        let ended = Command::new("sh")
            .args(["-c", &line])
            .env("PATH", &path)
            .current_dir(&*folder)
            .output()
            .expect("a shell runs");
        let told = String::from_utf8_lossy(&ended.stderr);
        assert!(ended.status.success(), "{line}: {told}");
    }
    assert!(
        folder.join("firmware.bin").is_file(),
        "the example of pack writes it"
    );
}

#[test]
fn the_version_is_that_of_the_package() {
    let due = format!("chooser {}\n", env!("CARGO_PKG_VERSION"));
    assert_eq!(run(&["--version"]).with(0).text(), due);
    assert_eq!(run(&["-V"]).with(0).text(), due);
}

#[test]
fn wrong_words_are_misuse_and_the_nearest_known_one_is_told() {
    let none: [&str; 0] = [];
    run(&none)
        .with(2)
        .tells(&["a subcommand is due", "usage: chooser"]);
    let cases = [
        (
            &["slove"][..],
            "no subcommand 'slove'; did you mean 'solve'?",
        ),
        (
            &["help", "unpak"],
            "no subcommand 'unpak'; did you mean 'unpack'?",
        ),
        (&["frobnicate"], "'chooser help' tells all subcommands"),
        (&["--verson"], "no subcommand '--verson'"),
        (&["help", "solve", "cut"], "'cut' is one word more"),
        (&["solve"], "FILE is missing"),
        (&["cut", "examples/firmware.txt"], "SIDES is missing"),
        (&["bound", "examples/firmware.txt"], "PREFIX is missing"),
        (&["pack"], "TEXT is missing"),
        (&["unpack"], "FILE is missing"),
        (&["wcsp"], "FILE is missing"),
        (&["wcsp", "a", "-o"], "behind -o its OUT is due"),
        (&["solve", "a", "b"], "'b' is one word too many"),
        (
            &["solve", "a", "--jsn"],
            "no option '--jsn' here; did you mean '--json'?",
        ),
        (
            &["bound", "a", "-", "--room", "3"],
            "no option '--room' here",
        ),
        (&["solve", "a", "--json=yes"], "--json takes nothing"),
        (&["solve", "a", "--json", "--json"], "--json stands twice"),
        (&["solve", "a", "--room"], "behind --room its N is due"),
        (&["pack", "a", "-o"], "behind -o its FILE is due"),
    ];
    for (words, part) in cases {
        let ended = run(words).with(2).tells(&["chooser: ", part]);
        assert_eq!(ended.out, b"");
    }
}

#[test]
fn words_behind_two_dashes_are_files() {
    run(&["solve", "--", "--help"])
        .with(2)
        .tells(&["there is no file --help"]);
    run(&["solve", "--json", "--", "examples/colours.bin"]).with(0);
}
