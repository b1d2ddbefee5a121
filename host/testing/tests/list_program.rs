//! The list program, which reads a problem from standard input: what it prints must be what the
//! brute force lists, line by line.

use std::io::Write;
use std::process::{Command, Output, Stdio};
use std::thread;

use chooser::junk::Rng;
use frontier::limits::MAX_BYTES;
use frontier::Table;
use testing::examples::{
    brimful, colours, every_arity, lone, objects, pair, stairs_of, ten_problems, three,
};
use testing::owned::list_text;
use testing::places::root;
use testing::random::{damage, random_problem, Shape};

/// The program, from the repository's root.
const PROGRAM: &str = "target/bin/list";

/// Runs the program on these bytes.
fn run(bytes: &[u8]) -> Output {
    let program = root().join(PROGRAM);
    assert!(
        program.is_file(),
        "the list program is not built: there is no {PROGRAM}; make it with \
         'packaging/build list' in the repository's root, and test again"
    );
    let mut process = Command::new(program)
        .stdin(Stdio::piped())
        .stdout(Stdio::piped())
        .stderr(Stdio::piped())
        .spawn()
        .expect("the list program starts");
    let mut input = process.stdin.take().expect("standard input is piped");
    let bytes = bytes.to_vec();
    // A thread writes, so that neither side waits for the other. The program may stop reading
    // early, once it has seen too many bytes; what it prints is judged below.
    let writer = thread::spawn(move || drop(input.write_all(&bytes)));
    let output = process.wait_with_output().expect("the list program ends");
    writer.join().expect("the writer ends");
    output
}

/// Asserts that the program prints this text and nothing else, and ends well.
fn assert_prints(bytes: &[u8], text: &str) {
    let output = run(bytes);
    assert_eq!(String::from_utf8_lossy(&output.stdout), text);
    assert_eq!(String::from_utf8_lossy(&output.stderr), "");
    assert_eq!(output.status.code(), Some(0), "{text}");
}

/// Asserts that the program prints what the brute force lists.
fn assert_lists(bytes: &[u8]) {
    assert_prints(bytes, &list_text(bytes));
}

#[test]
fn colours_as_the_reference_prints_it() {
    let text = "points 2 objectives 2 variables 3\n1 4 : 0 0 1\n10 0 : 0 0 0\n";
    assert_prints(&colours([100, 100]).encode(), text);
    assert_lists(&colours([100, 100]).encode());
}

#[test]
fn empty_input_is_refused() {
    assert_prints(&[], "refused 2 at 0\n");
}

#[test]
fn refusals_have_number_and_place() {
    let bytes = colours([100, 100]).encode();
    assert_prints(&bytes[..154], "refused 2 at 133\n");
    assert_prints(&[&bytes[..], &[0]].concat(), "refused 11 at 155\n");
    assert_prints(b"XX", "refused 3 at 0\n");
    assert_prints(&stairs_of(65).encode(), "refused 15 at 0\n");
}

#[test]
fn no_point_is_an_answer() {
    let text = "points 0 objectives 2 variables 3\n";
    assert_prints(&colours([2, 3]).encode(), text);
    assert_prints(
        &every_arity().encode(),
        "points 0 objectives 4 variables 4\n",
    );
}

#[test]
fn a_cost_may_be_its_ceiling() {
    let text = "points 1 objectives 1 variables 1\n0 : 0\n";
    assert_prints(&lone(1, 0).encode(), text);
    let text = "points 1 objectives 2 variables 3\n1 4 : 0 0 1\n";
    assert_prints(&colours([2, 4]).encode(), text);
}

#[test]
fn around_sixty_thousand_bytes() {
    let mut bytes = brimful().encode();
    assert_eq!(bytes.len(), MAX_BYTES);
    assert_lists(&bytes);
    bytes.push(0);
    assert_prints(&bytes, "refused 1 at 0\n");
    // What is behind byte 60,001 does not matter either.
    bytes.resize(3 * MAX_BYTES, 0);
    assert_prints(&bytes, "refused 1 at 0\n");
    assert_prints(&vec![0; MAX_BYTES + 1], "refused 1 at 0\n");
    assert_prints(&vec![0; MAX_BYTES], "refused 3 at 0\n");
    let mut padded = colours([100, 100]).encode();
    padded.resize(MAX_BYTES, 0);
    assert_prints(&padded, "refused 11 at 155\n");
}

#[test]
fn there_is_room_for_64_points() {
    let text = list_text(&stairs_of(64).encode());
    assert_eq!(text.lines().count(), 65);
    assert_lists(&stairs_of(64).encode());
}

#[test]
fn the_greatest_costs_have_all_their_digits() {
    let mut problem = three([u32::MAX, u32::MAX]);
    problem.tables[0].costs = vec![0, 1_000_000_000, u32::MAX - 1];
    problem.tables[1].costs = vec![u32::MAX - 1, 10, 9];
    problem.tables.push(Table::new(0, &[], &[1]));
    let text = "points 3 objectives 2 variables 1\n\
                1 4294967294 : 0\n1000000001 10 : 1\n4294967295 9 : 2\n";
    assert_prints(&problem.encode(), text);
}

#[test]
fn examples_and_random_problems() {
    for problem in ten_problems() {
        assert_lists(&problem.encode());
    }
    assert_lists(&pair([2, 2]).encode());
    assert_lists(&objects([13, 6, 6]).encode());
    let mut rng = Rng::new(1);
    for turn in 0..200 {
        let mut bytes = random_problem(&mut rng, &Shape::small()).encode();
        if turn % 4 == 0 {
            damage(&mut rng, &mut bytes);
        }
        assert_lists(&bytes);
    }
}
