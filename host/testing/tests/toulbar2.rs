//! A text means to toulbar2 what its problem means to the chooser, whether the text was written by the library
//! or read by it: of generated problems with one objective the least cost is the same, and the choice that
//! toulbar2 finds has it. Texts of the kinds in its documentation, made here, are read or refused as they should.
//!
//! No family of problems is left out: toulbar2 takes upper bounds from 1 to 4,294,967,295, which are strict, with
//! what no choice stays under it finds no solution, and it takes costs that are the upper bound, as forbidden
//! entries are written, or more, up to 4,294,967,295, several functions over the same variables, functions without
//! a tuple and texts of 255,000 bytes. What it is not asked is which of several choices comes first: it may find
//! any.

use std::path::{Path, PathBuf};
use std::thread;

use chooser::junk::Rng;
use frontier::{from_text, to_text, Chooser, Problem, Refusal, FORBIDDEN};
use testing::chooser_run::folder;
use testing::examples::{brimful, colours_first, lone};
use testing::random::{random_problem, Shape};
use testing::said::Said;
use testing::speed::toulbar2::{choice_printed, least_cost_printed, printed, NO_CHOICE};
use testing::wcsp::in_one_objective;

const TEXTS: u64 = 2_000;

/// So many toulbar2 run at a time.
const PROCESSES: u64 = 2;

/// The problem of a seed: small ones of all arities, those with all 24 variables, and wide ones.
fn generated(seed: u64) -> Problem {
    let shape = [Shape::small(), Shape::many_variables(), Shape::wide()];
    let rng = &mut Rng::new(0x7001_0000 + seed);
    in_one_objective(&random_problem(rng, &shape[(seed % 3) as usize]))
}

/// Asserts that toulbar2 finds the least cost of the problem in its text; whether there is one.
fn assert_same(chooser: &mut Chooser, problem: &Problem, file: &Path) -> bool {
    let bytes = problem.encode();
    let text = to_text(&bytes).expect("it has one objective and a bound");
    assert_means(chooser, &text, &bytes, file)
}

/// Asserts that a text means to toulbar2 what the problem with these bytes does; whether there is a choice.
fn assert_means(chooser: &mut Chooser, text: &str, bytes: &[u8], file: &Path) -> bool {
    let (output, _) = printed(text, file, &["-s"]).expect("toulbar2 runs");
    let due = chooser.solve(bytes).expect("one point at most");
    let due = due.points().next().map(|point| point.costs[0]);
    let told = due.map_or(NO_CHOICE.into(), |cost| cost.to_string());
    assert_eq!(least_cost_printed(&output), Some(told), "{text}\n{output}");
    if let Some(due) = due {
        let choice = choice_printed(&output).expect("it shows its solution");
        assert_eq!(choice.len(), usize::from(bytes[2]), "{text}\n{output}");
        let cost = Chooser::bound(bytes, &choice).expect("a choice");
        assert_eq!(cost.costs(), [u64::from(due)], "{text}\n{output}");
    }
    due.is_some()
}

/// Asks about every second problem, or so; how many have a choice.
fn ask_part(part: u64, file: PathBuf) -> usize {
    let mut chooser = Chooser::new();
    let seeds = (part..TEXTS).step_by(PROCESSES as usize);
    let solved = |seed| assert_same(&mut chooser, &generated(seed), &file);
    seeds.map(solved).filter(|&solved| solved).count()
}

#[test]
#[cfg_attr(
    not(has_toulbar2),
    ignore = "toulbar2 was not installed when this was built"
)]
fn of_2_000_texts_the_least_cost_is_that_of_the_list() {
    let folder = folder("toulbar2_generated");
    let parts = (0..PROCESSES).map(|part| {
        let file = folder.join(format!("part{part}.wcsp"));
        thread::spawn(move || ask_part(part, file))
    });
    let parts: Vec<_> = parts.collect();
    let ended = parts
        .into_iter()
        .map(|part| part.join().expect("all agree"));
    let solved = ended.sum::<usize>() as u64;
    assert!(solved > TEXTS / 3 && solved < TEXTS - 100, "{solved}");
}

/// Upper bounds at both ends and around the least cost, the greatest entries, and the longest text.
#[test]
#[cfg_attr(
    not(has_toulbar2),
    ignore = "toulbar2 was not installed when this was built"
)]
fn texts_at_the_limits_mean_the_same() {
    let (folder, mut chooser) = (folder("toulbar2_limits"), Chooser::new());
    let file = folder.join("limit.wcsp");
    let mut same = |problem: &Problem| assert_same(&mut chooser, problem, &file);
    for ceiling in [0, 1, 2, u32::MAX - 1] {
        assert!(same(&lone(8, ceiling)) && same(&lone(1, ceiling)));
        assert_eq!(same(&colours_first(ceiling)), ceiling > 0);
    }
    let mut full = in_one_objective(&brimful());
    full.ceilings = vec![u32::MAX - 1];
    for entry in [1, u32::MAX - 1, FORBIDDEN] {
        full.tables
            .iter_mut()
            .for_each(|table| table.costs.fill(entry));
        assert_eq!(same(&full), entry == 1);
    }
}

/// Other defaults than 0, tuples in any order and such as cost the default, in any layout.
#[test]
#[cfg_attr(
    not(has_toulbar2),
    ignore = "toulbar2 was not installed when this was built"
)]
fn of_400_texts_in_other_words_the_least_cost_is_that_of_what_is_read() {
    let (folder, mut chooser) = (folder("toulbar2_read"), Chooser::new());
    let file = folder.join("said.wcsp");
    let mut solved = 0;
    for seed in 0..400 {
        let rng = &mut Rng::new(0x5a1d + seed);
        let said = Said::of(rng, &generated(10_000 + seed));
        let text = String::from_utf8(said.text(rng)).expect("words of letters and digits");
        let bytes = from_text(text.as_bytes()).expect("within the limits");
        solved += usize::from(assert_means(&mut chooser, &text, &bytes, &file));
    }
    assert!(solved > 100 && solved < 400, "{solved}");
}

/// The queens of an n times n board, one in each column: for each pair of columns the rows that attack each
/// other cost so much, as tuples; all others cost nothing.
fn queens(n: usize, bound: u32, attack: u32) -> String {
    let pairs = (0..n).flat_map(|left| (left + 1..n).map(move |right| (left, right)));
    let function = |(left, right): (usize, usize)| {
        let rows = (0..n).flat_map(|a| (0..n).map(move |b| (a, b)));
        let attacks = rows.filter(|(a, b)| a == b || a.abs_diff(*b) == right - left);
        let tuples: Vec<String> = attacks
            .map(|(a, b)| format!("{a} {b} {attack}\n"))
            .collect();
        format!("2 {left} {right} 0 {}\n{}", tuples.len(), tuples.concat())
    };
    let functions: Vec<String> = pairs.map(function).collect();
    let sizes = vec![n.to_string(); n].join(" ");
    let head = format!("queens{n} {n} {n} {} {bound}\n{sizes}\n", functions.len());
    head + &functions.concat()
}

/// The same board with a cost for each square, as a function over each column.
fn weighted_queens(n: usize) -> String {
    let plain = queens(n, 100, 100);
    let (pairs, functions) = (n * (n - 1) / 2, n * (n - 1) / 2 + n);
    let counted = plain.replacen(
        &format!(" {pairs} 100\n"),
        &format!(" {functions} 100\n"),
        1,
    );
    let squares = (0..n).map(|column| {
        // The default is the cost of the square in row 0.
        let weight = |row: usize| (7 * row + 3 * column) % 10;
        let rows = (1..n).map(|row| format!("{row} {}\n", weight(row)));
        format!(
            "1 {column} {} {}\n{}",
            weight(0),
            n - 1,
            rows.collect::<String>()
        )
    });
    counted + &squares.collect::<String>()
}

/// Boards up to 8 times 8 are within the limits; 9 times 9 is not.
#[test]
#[cfg_attr(
    not(has_toulbar2),
    ignore = "toulbar2 was not installed when this was built"
)]
fn queens_are_read_and_mean_the_same() {
    let (folder, mut chooser) = (folder("toulbar2_queens"), Chooser::new());
    let file = folder.join("queens.wcsp");
    for n in 3..=8 {
        let text = queens(n, 1, 1);
        let bytes = from_text(text.as_bytes()).expect("within the limits");
        // Nobody can place three.
        assert_eq!(assert_means(&mut chooser, &text, &bytes, &file), n > 3);
    }
    for n in 4..=7 {
        let text = weighted_queens(n);
        let bytes = from_text(text.as_bytes()).expect("within the limits");
        assert!(assert_means(&mut chooser, &text, &bytes, &file));
    }
    assert_eq!(from_text(queens(9, 1, 1).as_bytes()), Err(Refusal::Dialect));
}

/// What the format has beside tuples is refused as content, also where toulbar2 takes it.
#[test]
fn shared_functions_keywords_and_bounds_of_domains_are_18() {
    let texts = [
        // A function that is defined with a negative arity, and used by the next.
        "shared 3 2 2 9\n2 2 2\n-2 0 1 0 2\n0 0 1\n1 1 1\n2 1 2 0 -1\n",
        // One that uses a function by its number.
        "shared 3 2 1 9\n2 2 2\n2 1 2 0 -1\n",
        // All different, a sum that is at most a number, and a difference, by keywords.
        "global 3 3 1 9\n3 3 3\n3 0 1 2 -1 salldiff var 9\n",
        "global 3 2 1 9\n2 2 2\n3 0 1 2 -1 knapsack -2 -1 -1 -1\n",
        "intent 2 4 1 9\n4 4\n2 0 1 -1 >= 1 0\n",
        // A domain from 0 to 9 by its bounds.
        "bounds 2 4 0 9\n4 -10\n",
    ];
    for text in texts {
        assert_eq!(from_text(text.as_bytes()), Err(Refusal::Dialect), "{text}");
    }
}
