//! Reading and bounding problems of 60,000 bytes: the proved chooser against plain Rust, in the
//! same run. Command: `cargo bench --offline --bench bound`; see `docs/PERFORMANCE.md`.

mod measuring;
#[path = "plain/bound.rs"]
mod plain;
#[path = "plain/reader.rs"]
mod reader;
mod shapes;

use std::hint::black_box;

use chooser::junk::Rng;
use frontier::lent;
use frontier::lent::Least;
use frontier::Problem;
use testing::brute;
use testing::mixed::{compare_bound, Mixed};
use testing::random::random_choice;
use testing::turned::falling;

type BoundCall = fn(&[u8], &[u8]) -> Least;

/// The chooser first, then the two sides in plain Rust.
const SIDES: [BoundCall; 3] = [
    lent::bound_prefix,
    plain::bound_by_loops,
    plain::bound_in_one_run,
];

/// A problem's bytes with a prefix to bound.
struct Work {
    shape: String,
    tables: usize,
    bytes: Vec<u8>,
    prefix: Vec<u8>,
}

impl Work {
    fn new(shape: String, problem: &Problem, prefix: &[u8]) -> Work {
        Work {
            shape,
            tables: problem.tables.len(),
            bytes: problem.encode(),
            prefix: prefix.to_vec(),
        }
    }
}

/// Each shape with prefixes of length 0, n / 2 and n. With n / 2 values it comes again with falling
/// scopes: variables that are free then stand before those that the prefix fixes.
fn all_work() -> Vec<Work> {
    let mut rng = Rng::new(1);
    let shapes: [(&str, Problem); 3] = [
        ("small tables", shapes::small_tables(&mut rng)),
        ("large tables", shapes::large_tables(&mut rng)),
        ("mixed tables", shapes::mixed_tables(&mut rng)),
    ];
    let mut all = Vec::new();
    for (shape, problem) in shapes {
        let choice = random_choice(&mut rng, &problem);
        let half = choice.len() / 2;
        for length in [0, half, choice.len()] {
            all.push(Work::new(shape.into(), &problem, &choice[..length]));
        }
        let turned = format!("{shape}, falling");
        all.push(Work::new(turned, &falling(&problem), &choice[..half]));
    }
    all
}

/// Speeds of sides that answer differently would say nothing.
fn assert_sides_agree(all: &[Work]) {
    for side in SIDES {
        for work in all {
            let answer = brute::bound_prefix(&work.bytes, &work.prefix);
            assert_eq!(answer.number, 0, "{}: not a valid problem", work.shape);
            assert_eq!(compare_bound(&work.bytes, &work.prefix, side), Ok(()));
        }
        for seed in 0..2_000 {
            assert_eq!(Mixed::new(seed).compare_bounds(side), Ok(()));
        }
    }
}

/// How many million bytes of problems each side goes through in a second.
fn speeds(work: &Work) -> [f64; SIDES.len()] {
    let call = |side: BoundCall| {
        move || {
            black_box(side(black_box(&work.bytes), black_box(&work.prefix)));
        }
    };
    measuring::best_speeds(SIDES.map(call), work.bytes.len())
}

/// A row of the table in `docs/PERFORMANCE.md`.
fn print_row(work: &Work) {
    let [chooser, loops, run] = speeds(work);
    println!(
        "| {} | {} | {} | {} | {chooser:.0} | {loops:.0} | {:.2} | {run:.0} | {:.2} |",
        work.shape,
        work.tables,
        work.bytes.len(),
        work.prefix.len(),
        chooser / loops,
        chooser / run,
    );
}

fn main() {
    let all = all_work();
    assert_sides_agree(&all);
    println!("The chooser and both sides in plain Rust answer alike.");
    if !measuring::is_asked() {
        return;
    }
    println!(
        "MB/s; ratio: the chooser's speed over plain Rust's, 1 is equal and less is slower.\n"
    );
    println!("| Shape | Tables | Bytes | Prefix | Chooser | Loops | Ratio | One run | Ratio |");
    println!("|---|--:|--:|--:|--:|--:|--:|--:|--:|");
    all.iter().for_each(print_row);
}
