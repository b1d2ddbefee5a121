//! C and C++ programs that include the headers compile without a warning, and call the library.

use std::fmt::Write;
use std::fs;
use std::path::{Path, PathBuf};
use std::process::Command;

use frontier::limits::{CHOICES_LEN, COSTS_LEN, FRAME_BYTES, LEAST_WORK, MAX_BATCH, MAX_POINTS};
use frontier::limits::{MAX_SLOTS, RESULT_LEN, SLOT_BYTES, TEXT_LEN};
use frontier::refusal::word_of;
use testing::c_compiler::{write_later_header, Compiler, C11, C99, CXX11, CXX17};
use testing::chooser_run::folder;
use testing::places::root;

/// What `tests/c/calls.c` prints: of each plain call number, place, count, how much of the work
/// memory is not zero, and the points; of each cut call the same with both half sizes after the
/// count; of each bound call number, place and the four numbers; of a point record its size and
/// where the choice starts; of each call for point records the same as of the plain call, with the
/// bytes changed past the points before these; of each text call number, place, count, the bytes
/// changed past the text, and the text; of each reading call the same, with 1 for the problem that is
/// due; of each canonical call number, place, count, key, the bytes changed past the form, and its
/// records; of each cached call number, place, count, hit, how much of the work memory is not zero, how
/// many bytes of the store have changed, and the points; of each batch call number, place, count, how much
/// of the work memory is not zero, how many elements have changed behind the areas of its problems, and of
/// each problem the results and the points.
const C_ANSWERS: &str = "\
0 0 3 0 0 2:00 1 1:01 2 0:11
15 0 0 0
12 0 0 8192
2 59 0 8192
0 0 3 2 2 0 0 2:00 1 1:01 2 0:11
0 0 3 1 3 0 0 2:00 1 1:01 2 0:11
15 0 0 0 0 0
13 0 0 0 0 8192
13 0 0 0 0 8192
14 16 0 0 0 8192
2 59 0 0 0 8192
0 0 4 0 0 0
0 0 4 0 0 0
0 0 259 0 0 0
16 0 0 0 0 0
2 16 0 0 0 0
40 16
0 0 3 0 0 0 2 0 0:000 1 1 0 0:010 2 0 0 0:110
15 0 0 0 0
12 0 0 8192 0
2 59 0 8192 0
0 0 51 0
P 2 2 1 10
2 2
2 0 1 0 4
0 0 7
0 1 5
1 0 259
1 1 4
19 0 0 0
2 16 0 0
18 0 0 0
0 0 38 0 1
0 0 38 0 1
19 0 0 0 0
18 0 0 0 0
17 0 0 0 0
0 0 70 0456e15bca55c90f 0 4346000000010000 4346000001000000 4346000001000000 434600020001040000000300000002000000010000000500000000000000
0 0 70 0456e15bca55c90f 0 4346000000010000 4346000001000000 4346000001000000 434600020001040000000300000002000000010000000500000000000000
19 0 0 0000000000000000 0
2 62 0 0000000000000000 0
0 0 72 dc5628ba354e54e5 0 43460001000000000001000000 43460001010000000001000000 43460101000100000000000000 43460101010100000000000000
15 0 0 0 0 43
15 0 0 1 0 0
0 0 3 1 0 0 0 2:00 1 1:01 2 0:11
20 0 0 0 8192 0
12 0 0 0 8192 0
2 59 0 0 8192 0
0 0 0 8192 0
0 0 3 0 0 | 0 0 3 0 2:00 1 1:01 2 0:11 | 2 59 0 | 0 0 3 0 2:00 1 1:01 2 0:11
0 0 1 8192 0 | 2 59 0
21 0 0 8192 0
21 0 0 8192 0
21 0 0 8192 0
12 0 0 8192 0
21 0 0 8192 0
";

/// A source in `tests/c`.
fn c_source(name: &str) -> PathBuf {
    Path::new(env!("CARGO_MANIFEST_DIR"))
        .join("tests/c")
        .join(name)
}

/// What a program in `tests/c` prints, compiled so and linked with the library.
fn printed(compiler: Compiler, name: &str) -> String {
    let program = folder(&format!("{name}_{}", compiler.standard)).join("program");
    let built = compiler.build(&root().join("include"), &c_source(name), &program);
    built.unwrap_or_else(|complaint| panic!("{}: {complaint}", compiler.standard));
    let run = Command::new(&program).output().expect("the program starts");
    assert!(run.status.success(), "{name}: {}", run.status);
    String::from_utf8(run.stdout).expect("a text")
}

/// What `tests/c/names.c` prints: both versions, the lengths of buffers, where a point record stands
/// behind a byte, and the word for each number.
fn names() -> String {
    let version = frontier::version();
    let lengths = [
        COSTS_LEN,
        CHOICES_LEN,
        MAX_POINTS,
        LEAST_WORK,
        TEXT_LEN,
        SLOT_BYTES,
        MAX_SLOTS,
        MAX_BATCH,
        FRAME_BYTES,
        RESULT_LEN,
        MAX_BATCH * COSTS_LEN,
        MAX_BATCH * CHOICES_LEN,
        MAX_BATCH * RESULT_LEN,
    ];
    let lengths = lengths.map(|length| length.to_string()).join(" ");
    let mut text = format!("{version} {version}\n{lengths}\n4\n0 accepted\n");
    for number in 1..=u8::MAX {
        writeln!(text, "{number} {}", word_of(number)).expect("a text grows");
    }
    text
}

/// Includes of one or two headers, each also a second time.
const INCLUDES: [&[&str]; 6] = [
    &["frontier.h"],
    &["frontier_measure.h"],
    &["frontier.h", "frontier.h"],
    &["frontier_measure.h", "frontier_measure.h"],
    &["frontier.h", "frontier_measure.h"],
    &["frontier_measure.h", "frontier.h"],
];

/// Asserts that sources that only include the headers compile, and that the programs print what
/// they should.
fn assert_compiles(compiler: Compiler) {
    let folder = folder(&format!("includes_{}", compiler.standard));
    for headers in INCLUDES {
        let lines = headers.iter().map(|name| format!("#include \"{name}\"\n"));
        let (source, object) = (folder.join("includes"), folder.join("includes.o"));
        fs::write(&source, lines.collect::<String>()).expect("a file can be written");
        let compiled = compiler.compile(&root().join("include"), &source, &object);
        assert_eq!(compiled, Ok(()), "{headers:?} as {}", compiler.standard);
    }
    assert_eq!(printed(compiler, "calls.c"), C_ANSWERS);
    assert_eq!(printed(compiler, "names.c"), names());
}

#[test]
fn c99_programs_call_the_library() {
    assert_compiles(C99);
}

#[test]
fn c11_programs_call_the_library() {
    assert_compiles(C11);
}

#[test]
#[cfg_attr(not(has_cxx), ignore = "c++ was not installed when this was built")]
fn cxx11_programs_call_the_library() {
    assert_compiles(CXX11);
}

#[test]
#[cfg_attr(not(has_cxx), ignore = "c++ was not installed when this was built")]
fn cxx17_programs_call_the_library() {
    assert_compiles(CXX17);
}

#[test]
fn what_the_interface_document_shows_compiles() {
    let parts = include_str!("../../../../docs/INTERFACE.md").split("```c\n");
    let shown = parts.skip(1).filter_map(|part| part.split("```").next());
    let folder = folder("interface_document");
    let (source, object) = (folder.join("shown.c"), folder.join("shown.o"));
    fs::write(&source, shown.collect::<String>()).expect("a file can be written");
    let compiled = C99.compile(&root().join("include"), &source, &object);
    assert_eq!(compiled, Ok(()));
    // With a header of another major version it must not.
    write_later_header(&folder, "MAJOR");
    let complaint = C99.compile(&folder, &source, &object);
    let complaint = complaint.expect_err("another version is refused");
    assert!(complaint.contains("is needed"), "{complaint}");
}
