//! README's commands: each that is not marked as long runs as it stands there and prints what stands
//! below it; of the long ones, what they name is there.

use std::fs;
use std::os::unix::fs::symlink;
use std::path::Path;
use std::process::{Command, Output};

use testing::chooser_run::{chooser, folder, Apart};
use testing::places::root;

const README: &str = include_str!("../../../README.md");
const MAKEFILE: &str = include_str!("../../../Makefile");
const VERSION: &str = env!("CARGO_PKG_VERSION");

/// A block between fences: the words behind the first fence, and the text.
struct Block {
    kind: String,
    text: String,
}

/// All blocks of a text, in their order.
fn blocks(text: &str) -> Vec<Block> {
    let mut blocks = Vec::new();
    let mut lines = text.lines();
    while let Some(line) = lines.next() {
        if let Some(kind) = line.strip_prefix("```") {
            let within = lines.by_ref().take_while(|line| *line != "```");
            let text = within.map(|line| format!("{line}\n")).collect();
            blocks.push(Block {
                kind: kind.into(),
                text,
            });
        }
    }
    blocks
}

/// A folder that looks like the repository's root with the command built, so that what the commands
/// write goes there.
fn newcomers_folder() -> Apart {
    let folder = Apart::new("readme");
    let root = root().canonicalize().expect("the root");
    for name in ["examples", "include", "target", "docs", "crates", ".ci"] {
        symlink(root.join(name), folder.join(name)).expect("a link is made");
    }
    let programs = folder.join("host/target/release");
    fs::create_dir_all(&programs).expect("a folder can be made");
    symlink(chooser(), programs.join("chooser")).expect("a link is made");
    folder
}

fn run(folder: &Path, command: &str) -> Output {
    Command::new("bash")
        .args(["-c", command])
        .current_dir(folder)
        .output()
        .expect("bash starts")
}

#[test]
fn every_short_command_runs_and_prints_what_stands_below() {
    let (folder, blocks) = (newcomers_folder(), blocks(README));
    let mut ran = 0;
    for (i, block) in blocks.iter().enumerate().filter(|(_, b)| b.kind == "sh") {
        let output = run(&folder, &block.text);
        let complaint = String::from_utf8_lossy(&output.stderr);
        assert!(output.status.success(), "{}{complaint}", block.text);
        if let Some(below) = blocks.get(i + 1).filter(|below| below.kind == "text") {
            assert_eq!(String::from_utf8_lossy(&output.stdout), below.text);
        }
        ran += 1;
    }
    assert_eq!(ran, 11, "another number of commands: is each block marked?");
    assert!(folder.join("firmware.svg").is_file());
    let [packed, example] = [
        folder.join("firmware.bin"),
        root().join("examples/firmware.bin"),
    ];
    assert_eq!(fs::read(packed).unwrap(), fs::read(example).unwrap());
}

#[test]
#[cfg_attr(not(has_git_and_make), ignore = "git or make is not installed")]
fn the_demo_prints_what_stands_below() {
    let blocks = blocks(README);
    let demo = blocks.iter().position(|block| block.text == "make demo\n");
    let below = &blocks[demo.expect("the demo") + 1];
    // the library was proved before this test was built, and is not proved again here
    let output = run(&root(), "make -o target/staticlib/libfrontier.a demo");
    let complaint = String::from_utf8_lossy(&output.stderr);
    assert!(output.status.success(), "{complaint}");
    assert_eq!(String::from_utf8_lossy(&output.stdout), below.text);
}

#[test]
fn what_the_long_commands_name_is_there() {
    let long: Vec<String> = blocks(README)
        .into_iter()
        .filter(|block| block.kind == "sh long")
        .map(|block| block.text)
        .collect();
    let expected = [
        "make demo\n",
        "make check\n",
        "host/target/release/chooser batch host/data/nightly --limit 2\n",
        "make && make install PREFIX=$HOME/frontier\n",
        "cc examples/link.c $(PKG_CONFIG_PATH=$HOME/frontier/lib/pkgconfig pkg-config --cflags --libs \
         frontier) -o link\n",
        "make disc\n",
        &format!("make check-disc DISC=target/disc/frontier-{VERSION}-x86_64-linux.tar\n"),
        "packaging/build list && target/bin/list < examples/colours.bin\n",
    ];
    assert_eq!(long, expected);
    for path in [
        "host/Cargo.toml",
        "host/data/nightly",
        "examples/colours.bin",
        "examples/link.c",
        "packaging/build",
    ] {
        assert!(root().join(path).exists(), "{path}");
    }
    for target in ["demo:", "check:", "install:", "disc:", "check-disc:"] {
        let found = MAKEFILE.lines().any(|line| line.starts_with(target));
        assert!(found, "{target}");
    }
    let crates = fs::read_to_string(root().join("crates.txt")).expect("crates.txt");
    for name in ["frontier:", "frontier_c staticlib:", "list:"] {
        assert!(crates.lines().any(|line| line.starts_with(name)), "{name}");
    }
    // What the list program prints is asked by its own tests; that README says it is asked here.
    let colours = testing::examples::colours([100, 100]).encode();
    let listed = testing::owned::list_text(&colours);
    assert!(blocks(README).iter().any(|block| block.text == listed));
    assert_eq!(
        fs::read(root().join("examples/colours.bin")).unwrap(),
        colours
    );
}

#[test]
fn every_block_is_a_command_or_what_one_prints_or_the_program_in_rust() {
    let blocks = blocks(README);
    for block in &blocks {
        match block.kind.as_str() {
            "sh" | "sh long" => assert_eq!(block.text.lines().count(), 1, "{}", block.text),
            "text" | "rust" => {}
            kind => panic!("{kind}: {}", block.text),
        }
    }
    let programs = blocks.iter().filter(|block| block.kind == "rust");
    assert_eq!(programs.count(), 1);
}

#[test]
fn every_link_leads_to_a_file() {
    let links: Vec<&str> = README
        .split("](")
        .skip(1)
        .filter_map(|rest| rest.split(')').next())
        .collect();
    assert!(links.len() >= 8);
    for link in links {
        assert!(root().join(link).is_file(), "{link}");
    }
}

#[test]
fn the_program_in_rust_builds_in_a_package_of_its_own_and_lists_the_example() {
    let (folder, blocks) = (folder("readme_rust"), blocks(README));
    let program = blocks.iter().find(|block| block.kind == "rust");
    let program = &program.expect("README has a program in Rust").text;
    let root = root();
    let package = root.join("host/frontier");
    let manifest = format!(
        "[package]\nname = \"newcomer\"\nedition = \"2021\"\n\n[dependencies]\n\
         frontier = {{ path = {package:?} }}\n\n[workspace]\n"
    );
    fs::create_dir(folder.join("src")).expect("a folder can be made");
    fs::write(folder.join("Cargo.toml"), manifest).expect("a file can be written");
    fs::write(folder.join("src/main.rs"), program).expect("a file can be written");
    let output = Command::new(env!("CARGO"))
        .args(["run", "--quiet", "--offline", "--manifest-path"])
        .arg(folder.join("Cargo.toml"))
        .env("CARGO_TARGET_DIR", folder.join("target"))
        .current_dir(&root)
        .output()
        .expect("cargo starts");
    let complaint = String::from_utf8_lossy(&output.stderr);
    assert!(output.status.success(), "{complaint}");
    let listed = String::from_utf8_lossy(&output.stdout);
    let lines: Vec<&str> = listed.lines().collect();
    assert_eq!(lines.len(), 12, "{listed}");
    assert_eq!(lines[0], "[950, 8900] by [0, 1, 0, 0]");
}
