//! Completion in bash: every subcommand and every option that the helps tell, and files.

use testing::chooser_run::{chooser, run, subcommands};
use testing::places::root;
use testing::scripts::must;

/// What bash would complete the last of these words to.
fn completed(words: &[&str]) -> Vec<String> {
    let line =
        format!(
        "source packaging/chooser.bash && COMP_WORDS=('{}' {}) && COMP_CWORD={} && _chooser && \
         printf '%s\\n' \"${{COMPREPLY[@]}}\"",
        chooser().display(),
        words.iter().map(|word| format!("'{word}' ")).collect::<String>(),
        words.len()
    );
    let mut found: Vec<String> = must(&root(), &line, &[])
        .lines()
        .map(String::from)
        .collect();
    found.sort();
    found.retain(|word| !word.is_empty());
    found
}

/// The options that a help tells: in its usage, and at the beginnings of its indented lines.
fn options(help: &str) -> Vec<String> {
    let (usage, body) = help.split_once("\n\n").expect("a usage");
    let listed = body.lines().filter_map(|line| line.strip_prefix("    -"));
    let listed = listed.map(|rest| format!("-{}", rest.split(' ').next().unwrap_or_default()));
    let words = usage.split(|letter: char| letter.is_whitespace() || "[]".contains(letter));
    let used = words.filter(|word| word.starts_with('-')).map(String::from);
    let mut options: Vec<String> = used.chain(listed).collect();
    options.sort();
    options.dedup();
    options
}

#[test]
fn subcommands_are_completed() {
    assert_eq!(completed(&["so"]), ["solve"]);
    assert_eq!(completed(&["help", "unp"]), ["unpack"]);
    assert_eq!(completed(&["--v"]), ["--version"]);
    assert_eq!(completed(&["frob"]), Vec::<String>::new());
    let mut due = subcommands();
    due.extend(["--help", "--version"].map(String::from));
    due.sort();
    assert_eq!(completed(&[""]), due);
}

#[test]
fn every_option_that_a_help_tells_is_completed() {
    let mut told = 0;
    for name in subcommands() {
        let help = run(&["help", &name]).with(0).text().to_string();
        let due = options(&help);
        told += due.len();
        let found = completed(&[&name, "examples/firmware.txt", "-"]);
        for option in &due {
            assert!(found.contains(option), "{name} {option}: {found:?}");
        }
        assert_eq!(found.len(), due.len() + 1, "--help is one more: {found:?}");
    }
    assert!(told >= 13, "options in all helps: {told}");
    assert_eq!(completed(&["solve", "--j"]), ["--json"]);
}

#[test]
fn other_words_are_files() {
    assert_eq!(
        completed(&["solve", "examples/firm"]),
        ["examples/firmware.bin", "examples/firmware.txt"]
    );
    assert_eq!(
        completed(&["pack", "examples/firmware.txt", "-o", "inc"]),
        ["include"]
    );
}
