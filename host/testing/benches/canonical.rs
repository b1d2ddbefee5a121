//! The canonical form of problems and its key: the proved chooser against plain Rust, in the same run. Command:
//! `cargo bench --offline --bench canonical`; see `docs/PERFORMANCE.md`.

mod measuring;
#[path = "plain/canonical.rs"]
mod plain;
#[path = "plain/reader.rs"]
mod reader;
mod shapes;

use std::hint::black_box;

use chooser::junk::Rng;
use frontier::lent::{self, Keyed};
use frontier::limits::{MAX_BYTES, MAX_DOMAIN, MAX_OBJECTIVES, MAX_TABLES, MAX_VARIABLES};
use frontier::{canonical, Problem, Table};
use testing::layouts::{compare_canonical, random_layout, reversed};
use testing::mixed::Mixed;
use testing::stored::nightly;
use testing::turned::{falling, rising};

type FormCall = fn(&[u8], &mut [u8]) -> Keyed;

/// The chooser first, then plain Rust.
const SIDES: [FormCall; 2] = [lent::canonical, plain::canonical];

/// Problems that are gone through one after another.
struct Work {
    name: String,
    problems: Vec<Vec<u8>>,
}

impl Work {
    fn bytes(&self) -> usize {
        self.problems.iter().map(Vec::len).sum()
    }
}

/// As many records as there may be over this scope of variables of seven values, all alike but for their last
/// entry, so that every comparison goes through whole records.
fn alike(rng: &mut Rng, scope: &[u8]) -> Problem {
    let size: u8 = 7;
    let mut costs = vec![0; usize::from(size).pow(scope.len() as u32)];
    let mut table = || {
        *costs.last_mut().expect("an entry") = rng.bits() as u32;
        Table::new(0, scope, &costs)
    };
    Problem {
        ceilings: vec![u32::MAX],
        domains: vec![size; MAX_VARIABLES],
        tables: (0..MAX_TABLES).map(|_| table()).collect(),
    }
}

/// As many records as there may be over one variable each, of eight values, with random entries; variables and
/// objectives take turns.
fn over_one(rng: &mut Rng) -> Problem {
    let table = |number: usize| Table {
        objective: (number % MAX_OBJECTIVES) as u8,
        scope: vec![(number % MAX_VARIABLES) as u8],
        costs: (0..MAX_DOMAIN).map(|_| rng.bits() as u32).collect(),
    };
    Problem {
        ceilings: vec![u32::MAX; MAX_OBJECTIVES],
        domains: vec![MAX_DOMAIN as u8; MAX_VARIABLES],
        tables: (0..MAX_TABLES).map(table).collect(),
    }
}

/// A problem in its form, with all records in the opposite order, with all scopes falling, with both, and in a
/// random layout.
fn in_layouts(rng: &mut Rng, name: &str, problem: &Problem) -> Vec<Work> {
    let form = canonical(&problem.encode()).expect("a valid problem").form;
    let form = Problem::decode(&form).expect("a form is a problem");
    assert_eq!(rising(&form), form);
    let layouts = [
        ("its own form", form.clone()),
        ("records reversed", reversed(form.clone())),
        ("scopes turned", falling(&form)),
        ("both", reversed(falling(&form))),
        ("at random", random_layout(rng, &form)),
    ];
    let work = |(layout, problem): (&str, Problem)| Work {
        name: format!("{name}, {layout}"),
        problems: vec![problem.encode()],
    };
    layouts.map(work).into()
}

/// A night's problems, and each shape in each layout.
fn all_work() -> Vec<Work> {
    let mut rng = Rng::new(1);
    let night = nightly().into_iter().map(|stored| stored.bytes);
    let mut all = vec![Work {
        name: "a night".into(),
        problems: night.collect(),
    }];
    let shapes = [
        ("large tables", shapes::large_tables(&mut rng)),
        ("mixed tables", shapes::mixed_tables(&mut rng)),
        ("256 over pairs", shapes::small_tables(&mut rng)),
        ("256 over one", over_one(&mut rng)),
        ("256 alike", alike(&mut rng, &[3, 14])),
    ];
    for (name, problem) in shapes {
        all.extend(in_layouts(&mut rng, name, &problem));
    }
    all
}

/// Speeds of sides that answer differently would say nothing.
fn assert_sides_agree(all: &[Work]) {
    for side in SIDES {
        for problem in all.iter().flat_map(|work| &work.problems) {
            assert_eq!(side(problem, &mut vec![7; MAX_BYTES]).answer.number, 0);
            assert_eq!(compare_canonical(problem, &[7; MAX_BYTES], side), Ok(()));
        }
        for seed in 0..2_000 {
            assert_eq!(Mixed::new(seed).compare_canonical(side), Ok(()));
        }
    }
}

/// How many nanoseconds each side takes for all problems of a work.
fn times(work: &Work) -> [f64; SIDES.len()] {
    let call = |side: FormCall| {
        let mut form = vec![0; MAX_BYTES];
        move || {
            for problem in &work.problems {
                black_box(side(black_box(problem), black_box(&mut form)));
            }
        }
    };
    let bytes = work.bytes();
    // A speed of 1 is a million bytes a second, so 1,000 ns a byte.
    measuring::best_speeds(SIDES.map(call), bytes).map(|speed| 1e3 * bytes as f64 / speed)
}

/// A row of the table in `docs/PERFORMANCE.md`.
fn print_row(work: &Work) {
    let [chooser, plain] = times(work);
    println!(
        "| {} | {} | {} | {chooser:.0} | {plain:.0} | {:.2} |",
        work.name,
        work.problems.len(),
        work.bytes(),
        plain / chooser,
    );
}

fn main() {
    let all = all_work();
    assert_sides_agree(&all);
    println!("The chooser and plain Rust write the same forms, and tell the same keys.");
    if !measuring::is_asked() {
        return;
    }
    println!(
        "Nanoseconds for all problems of a row; ratio: plain Rust's time over the chooser's, 1 is \
         equal and less is slower.\n"
    );
    println!("| Problems | Number | Bytes | Chooser | Plain Rust | Ratio |");
    println!("|---|--:|--:|--:|--:|--:|");
    all.iter().for_each(print_row);
}
