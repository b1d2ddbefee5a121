//! The examples that link the static library, from C and from Rust: they print what the list program
//! prints for the same file, without its first line.

use std::fs;
use std::path::{Path, PathBuf};
use std::process::{Command, Output};

use testing::c_compiler::{write_later_header, C99};
use testing::chooser_run::folder;
use testing::examples::{colours, objects, stairs_of};
use testing::owned::list_text;
use testing::places::root;

/// A file of its own for a test.
fn scratch(name: &str) -> PathBuf {
    Path::new(env!("CARGO_TARGET_TMPDIR")).join(name)
}

/// Builds the C example with the headers of a folder; the program's file.
fn built_link(name: &str, include: &Path) -> PathBuf {
    let program = scratch(name);
    let source = root().join("examples/link.c");
    let built = C99.build(include, &source, &program);
    built.unwrap_or_else(|complaint| panic!("{complaint}"));
    program
}

/// Builds the Rust example, which cargo does by itself only where all tests run; its file. It goes
/// where this test is, so that nothing else is built again.
fn built_solve() -> PathBuf {
    let this = std::env::current_exe().expect("this test has a file");
    let target = this.ancestors().nth(3).expect("target/release/deps");
    let built = Command::new(env!("CARGO"))
        .args([
            "build",
            "--release",
            "--offline",
            "--example",
            "solve",
            "--target-dir",
        ])
        .arg(target)
        .current_dir(root().join("host"))
        .output()
        .expect("cargo starts");
    let complaint = String::from_utf8_lossy(&built.stderr);
    assert!(built.status.success(), "{complaint}");
    target.join("release/examples/solve")
}

fn run(program: &Path, file: &Path) -> Output {
    let output = Command::new(program).arg(file).output();
    output.unwrap_or_else(|error| panic!("{}: {error}", program.display()))
}

/// Asserts what a program prints and how it ends, for problems that are answered and refused.
fn assert_lists(program: &Path, name: &str) {
    let firmware = fs::read(root().join("examples/firmware.bin")).expect("the example");
    let [first, second] = [colours([100, 100]), objects([13, 100, 100])].map(|p| p.encode());
    for bytes in [firmware, first, second, stairs_of(64).encode()] {
        let file = scratch(&format!("{name}.bin"));
        fs::write(&file, &bytes).expect("a file can be written");
        let output = run(program, &file);
        let expected = list_text(&bytes);
        let (_, points) = expected.split_once('\n').expect("a first line");
        assert_eq!(String::from_utf8_lossy(&output.stdout), points);
        assert_eq!(output.status.code(), Some(0));
    }
    for (bytes, complaint) in [
        (vec![], "refused with number 2"),
        (vec![0; 60_001], "refused with number 1"),
        (stairs_of(65).encode(), "refused with number 15"),
    ] {
        let file = scratch(&format!("{name}.bin"));
        fs::write(&file, &bytes).expect("a file can be written");
        let output = run(program, &file);
        let text = String::from_utf8_lossy(&output.stderr);
        assert!(text.contains(complaint), "{text}");
        assert_eq!((output.status.code(), output.stdout), (Some(1), vec![]));
    }
    let missing = run(program, Path::new("no/such/file"));
    assert_eq!(missing.status.code(), Some(2));
    assert!(!missing.stderr.is_empty());
}

#[test]
fn the_c_example_lists_the_points() {
    let program = built_link("link", &root().join("include"));
    assert_lists(&program, "link_c");
    let refused = run(&program, Path::new("/dev/null"));
    let complaint = "link: /dev/null is refused with number 2 (cut short) at byte 0\n";
    assert_eq!(String::from_utf8_lossy(&refused.stderr), complaint);
}

#[test]
fn the_c_example_tells_a_library_that_is_older_than_the_header() {
    let folder = folder("later_header");
    let example = root().join("examples/firmware.bin");
    for part in ["MAJOR", "PATCH"] {
        write_later_header(&folder, part);
        let refused = run(&built_link("link_later", &folder), &example);
        let complaint = String::from_utf8_lossy(&refused.stderr);
        let expected = format!("the library has version {}", env!("CARGO_PKG_VERSION"));
        assert!(complaint.contains(&expected), "{part}: {complaint}");
        assert_eq!((refused.status.code(), refused.stdout), (Some(2), vec![]));
    }
}

#[test]
fn the_rust_example_lists_the_points() {
    assert_lists(&built_solve(), "link_rust");
}

#[test]
fn the_comment_of_the_c_example_is_how_it_is_built() {
    let text = fs::read_to_string(root().join("examples/link.c")).expect("the example");
    let build = "cc -Iinclude examples/link.c target/staticlib/libfrontier.a -o link && ./link \
                 examples/firmware.bin";
    assert!(text.contains(build));
}
