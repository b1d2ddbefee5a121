//! The manual pages: that of chooser tells what the command's helps tell, that of list what the list
//! program does, and both are in order for groff.

use std::fs;
use std::path::PathBuf;

use testing::chooser_run::{chooser, folder, run, subcommands};
use testing::places::root;
use testing::scripts::must;

/// A manual page as it is installed, in a file of its own for the test.
fn page(name: &str, test: &str) -> PathBuf {
    let folder = folder(&format!("manual_{test}"))
        .canonicalize()
        .expect("a folder");
    let target = folder.to_str().expect("a path of letters");
    let chooser = chooser();
    let chooser = chooser.to_str().expect("a path of letters");
    let settings = [("DESTDIR", target), ("PREFIX", "/"), ("CHOOSER", chooser)];
    must(&root(), "bash packaging/install", &settings);
    folder.join("share/man/man1").join(name)
}

/// The text of a page with one space between words, and without what only roff reads.
fn plain(page: &str) -> String {
    let text = |line: &str| match line.strip_prefix('.') {
        None => line.to_string(),
        Some(request) => match request.split_once(' ') {
            Some(("B" | "BR" | "SH" | "SS", text)) => text.to_string(),
            _ => String::new(),
        },
    };
    let lines: Vec<String> = page.lines().map(text).collect();
    let text = lines.join(" ").replace("\\-", "-").replace("\\(aq", "'");
    let text = text.replace("\\&", "").replace("\\e", "\\");
    one_space(&text)
}

fn one_space(text: &str) -> String {
    text.split_whitespace().collect::<Vec<_>>().join(" ")
}

#[test]
fn the_page_of_chooser_has_every_word_of_the_helps() {
    let page = fs::read_to_string(page("chooser.1", "words")).expect("the page");
    assert!(
        !page.contains("--"),
        "roff would print hyphens, which no shell takes"
    );
    let page = plain(&page);
    let mut helps = vec![run(&["help"]).with(0).text().to_string()];
    for name in subcommands() {
        let help = run(&["help", &name]).with(0).text().to_string();
        let (usage, body) = help.split_once("\n\n").expect("a usage");
        let usage = usage.strip_prefix("usage: ").expect("a usage");
        assert!(page.contains(&one_space(usage)), "no '{usage}' in {page}");
        assert!(
            page.contains(&format!(" {name} {} ", one_space(body))),
            "{body}"
        );
        helps.push(help);
    }
    let (_, overview) = helps[0].split_once("\n\n").expect("a usage");
    assert!(page.contains(&one_space(overview)), "{overview}");
    let name =
        "NAME chooser - chooses code variants: lists the cost vectors that nothing beats SYNOPSIS";
    assert!(page.contains(name), "{page}");
}

#[test]
fn the_page_of_list_tells_what_the_program_prints() {
    let page = fs::read_to_string(page("list.1", "list")).expect("the page");
    let answers = must(&root(), "target/bin/list <examples/colours.bin", &[]);
    let refusal = must(&root(), "target/bin/list </dev/null", &[]);
    for printed in [answers, refusal] {
        assert!(
            page.contains(&format!("\n.EX\n{printed}.EE\n")),
            "{printed}"
        );
    }
}

#[test]
#[cfg_attr(not(has_groff), ignore = "groff is not installed")]
fn groff_has_no_complaint() {
    for name in ["chooser.1", "list.1"] {
        let page = page(name, name);
        let line = format!(
            "groff -mandoc -Tutf8 -ww '{}' 2>&1 >/dev/null",
            page.display()
        );
        assert_eq!(must(&root(), &line, &[]), "");
    }
}
