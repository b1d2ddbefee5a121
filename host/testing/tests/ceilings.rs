//! A cost equal to its ceiling is allowed, and nothing else has changed: under ceilings below 4,294,967,295 the
//! answers are those of version 2.2.0 under ceilings one larger.

use std::collections::BTreeMap;
use std::fs;
use std::io::{BufRead, BufReader};
use std::iter::zip;
use std::ops::Range;
use std::process::{Command, Stdio};

use frontier::lent::{self, CutCall, SolveCall};
use frontier::refusal::{FULL, LINKED};
use frontier::{Point, FORBIDDEN};
use testing::brute::{solve_cut, solve_problem};
use testing::ceilings::{digest, Case, DIGESTS, PROBLEMS};
use testing::mixed::{compare_cut, compare_solve};
use testing::places::data;

/// The stored digests: a line with a number and a digest for each thousand.
fn stored_digests() -> Vec<u64> {
    let text = fs::read_to_string(data("ceilings.digests")).expect("a file of the repository");
    let digest_of = |(number, line): (usize, &str)| {
        let digest = line.strip_prefix(&format!("{number:02} "));
        u64::from_str_radix(digest.expect("the number"), 16).expect("a digest")
    };
    let digests: Vec<u64> = text.lines().enumerate().map(digest_of).collect();
    assert_eq!(digests.len() as u64, DIGESTS);
    digests
}

/// In which problem of a thousand two calls first differ from the brute force.
fn first_difference(thousand: u64, solve: SolveCall, cut: CutCall) -> String {
    let compare = |number: u64| {
        let case = Case::new(number);
        let (bytes, lent) = (case.problem.encode(), case.buffers());
        compare_solve(&bytes, &lent, solve)?;
        compare_cut(&bytes, &case.sides, &lent, cut)
    };
    let numbers = thousand * PROBLEMS..(thousand + 1) * PROBLEMS;
    let mut told =
        numbers.filter_map(|number| Some(format!("{number}: {}", compare(number).err()?)));
    told.next()
        .unwrap_or("none that the brute force tells".into())
}

/// Asks some thousands of two calls.
fn ask_thousands(thousands: Range<u64>, solve: SolveCall, cut: CutCall) {
    let stored = stored_digests();
    for thousand in thousands {
        assert!(
            digest(thousand, false, solve, cut) == stored[thousand as usize],
            "of problems {thousand}000 to {thousand}999 one is answered otherwise than by version 2.2.0 under \
             ceilings one larger: {}",
            first_difference(thousand, solve, cut)
        );
    }
}

// The library in parts that run side by side.

#[test]
fn answers_of_version_2_2_0_under_ceilings_one_larger_0_to_50_000() {
    ask_thousands(0..50, lent::solve_problem, lent::solve_cut);
}

#[test]
fn answers_of_version_2_2_0_under_ceilings_one_larger_50_000_to_100_000() {
    ask_thousands(50..100, lent::solve_problem, lent::solve_cut);
}

/// The brute force too gives the answers of that version.
#[test]
fn the_brute_force_gives_them_too() {
    ask_thousands(0..20, solve_problem, solve_cut);
}

/// A trait that is worth counting, by name, and whether it is present.
type Trait = (&'static str, bool);

/// What is in a case, and what the plain call lists.
fn plain_traits(case: &Case) -> Vec<Trait> {
    let (bytes, mut lent) = (case.problem.encode(), case.buffers());
    let answer = lent.lend(solve_problem, &bytes);
    let listed = lent.listed(&bytes, answer);
    let listed: Vec<_> = listed.map_or(Vec::new(), |list| list.points().collect());
    let pairs = |point: &Point| zip(point.costs.to_vec(), case.problem.ceilings.clone());
    let equal = |&(cost, ceiling): &(u32, u32)| cost == ceiling;
    let met: Vec<_> = listed.iter().flat_map(pairs).filter(equal).collect();
    let forbidden = |arity: usize| {
        let mut tables = case.problem.tables.iter();
        tables.any(|table| table.scope.len() == arity && table.costs.contains(&FORBIDDEN))
    };
    vec![
        ("a cost equal to its ceiling", !met.is_empty()),
        ("a cost of 0 under 0", met.contains(&(0, 0))),
        ("a large ceiling is met", met.iter().any(|m| m.0 > 1 << 31)),
        ("a forbidden entry decides", case.forbids()),
        ("forbidden in arity 0", forbidden(0)),
        ("forbidden in arity 3", forbidden(3)),
        ("15", answer.number == FULL),
        ("no point", answer.number == 0 && listed.is_empty()),
        ("several points", listed.len() > 2),
    ]
}

/// What the cut call makes of a case.
fn cut_traits(case: &Case) -> Vec<Trait> {
    let bytes = case.problem.encode();
    let cut = case.buffers().lend_cut(solve_cut, &bytes, &case.sides);
    let (answered, sizes) = (cut.answer.number == 0, [cut.first, cut.second]);
    let alike = case.sides.windows(2).all(|pair| pair[0] == pair[1]);
    let no_sum = cut.answer.count == 0 && !sizes.contains(&0);
    vec![
        ("14", cut.answer.number == LINKED),
        ("15 of a cut", cut.answer.number == FULL),
        (
            "several points in both halves",
            sizes.iter().all(|&s| s > 1),
        ),
        ("a half without variables", answered && alike),
        ("a point in each half and no sum", answered && no_sum),
    ]
}

/// So that the digests are not of dull problems only.
#[test]
fn the_problems_are_varied() {
    let mut counts: BTreeMap<&str, u32> = BTreeMap::new();
    for number in 0..10_000 {
        let case = Case::new(number);
        for (name, present) in plain_traits(&case).into_iter().chain(cut_traits(&case)) {
            *counts.entry(name).or_default() += u32::from(present);
        }
    }
    for (name, &count) in &counts {
        assert!(count >= 100, "{name} met {count} times: {counts:?}");
    }
}

/// The first line that the program prints with these arguments; it is not waited for the others.
fn first_line(arguments: &[&str]) -> String {
    let mut program = Command::new(env!("CARGO_BIN_EXE_ceilings"))
        .args(arguments)
        .stdout(Stdio::piped())
        .spawn()
        .expect("ceilings starts");
    let mut line = String::new();
    let mut output = BufReader::new(program.stdout.take().expect("it is piped"));
    output.read_line(&mut line).expect("a line of text");
    program.kill().expect("it is our process");
    program.wait().expect("it ends");
    line
}

#[test]
fn the_program_prints_what_is_stored_and_raises_ceilings_if_asked() {
    let stored = fs::read_to_string(data("ceilings.digests")).expect("a file of the repository");
    let line = first_line(&[]);
    assert!(line.ends_with('\n') && stored.starts_with(&line), "{line}");
    let raised = first_line(&["--raised"]);
    assert_eq!((&raised[..3], raised.len()), ("00 ", line.len()));
    assert_ne!(raised, line);
}

#[test]
fn bad_arguments_give_the_usage() {
    let bad: [&[&str]; 3] = [&["--lowered"], &["1"], &["--raised", "--raised"]];
    for arguments in bad {
        let output = Command::new(env!("CARGO_BIN_EXE_ceilings"))
            .args(arguments)
            .output()
            .expect("ceilings starts");
        let complaint = String::from_utf8(output.stderr).expect("text");
        assert_eq!(output.status.code(), Some(2), "{arguments:?}");
        assert!(
            complaint.contains("usage: ceilings [--raised]"),
            "{complaint}"
        );
        assert!(output.stdout.is_empty(), "{arguments:?}");
    }
}
