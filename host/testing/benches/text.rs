//! Writing problems as WCSP text and reading them: the proved chooser against plain Rust, in the same run; and how
//! the time of reading grows with texts far outside the limits. Command:
//! `cargo bench --offline --bench text`; see `docs/PERFORMANCE.md`.

mod hostile;
mod measuring;
#[path = "plain/text.rs"]
mod plain;
#[path = "plain/read.rs"]
mod plain_read;
#[path = "plain/reader.rs"]
mod reader;
mod shapes;

use std::hint::black_box;

use chooser::junk::Rng;
use frontier::lent::{self, Answer};
use frontier::limits::{MAX_BYTES, TEXT_LEN};
use frontier::{to_text, Problem};
use testing::mixed::Mixed;
use testing::read_texts::{compare_read, generated};
use testing::stored::nightly;
use testing::texts::{compare_text, need};
use testing::wcsp::in_one_objective;

type TextCall = fn(&[u8], &mut [u8]) -> Answer;

/// The chooser first, then plain Rust.
const WRITERS: [TextCall; 2] = [lent::to_text, plain::to_text];
const READERS: [TextCall; 2] = [lent::from_text, plain_read::from_text];

/// Problems that are written one after another, and their texts, which are read.
struct Work {
    name: String,
    problems: Vec<Vec<u8>>,
    texts: Vec<Vec<u8>>,
}

impl Work {
    fn new(name: String, problems: Vec<Vec<u8>>) -> Work {
        let text = |problem: &Vec<u8>| to_text(problem).expect("one objective").into_bytes();
        Work {
            name,
            texts: problems.iter().map(text).collect(),
            problems,
        }
    }

    /// How many bytes the problems have, and their texts.
    fn bytes(&self) -> [usize; 2] {
        [&self.problems, &self.texts].map(|forms| forms.iter().map(Vec::len).sum())
    }
}

/// What the entries of a full problem are.
struct Entries {
    name: &'static str,
    /// They are below this.
    bound: u64,
    /// One in so many is not 0.
    one_in: usize,
}

const ENTRIES: [Entries; 4] = [
    Entries {
        name: "large",
        bound: 1 << 32,
        one_in: 1,
    },
    Entries {
        name: "small",
        bound: 100,
        one_in: 1,
    },
    Entries {
        name: "large, one in eight",
        bound: 1 << 32,
        one_in: 8,
    },
    Entries {
        name: "small, one in eight",
        bound: 100,
        one_in: 8,
    },
];

/// The problem in one objective with such entries.
fn filled(rng: &mut Rng, problem: &Problem, entries: &Entries) -> Vec<u8> {
    let mut problem = in_one_objective(problem);
    for table in &mut problem.tables {
        table.costs.fill_with(|| match rng.once_in(entries.one_in) {
            true => (rng.bits() % entries.bound) as u32,
            false => 0,
        });
    }
    problem.encode()
}

/// A night's problems, and each shape with each kind of entries.
fn all_work() -> Vec<Work> {
    let mut rng = Rng::new(1);
    let night = nightly();
    let night = night
        .iter()
        .map(|stored| in_one_objective(&stored.problem).encode());
    let mut all = vec![Work::new("a night".into(), night.collect())];
    let shapes = [
        ("small tables", shapes::small_tables(&mut rng)),
        ("large tables", shapes::large_tables(&mut rng)),
        ("mixed tables", shapes::mixed_tables(&mut rng)),
    ];
    for (shape, problem) in shapes {
        all.extend(ENTRIES.iter().map(|entries| {
            let problems = vec![filled(&mut rng, &problem, entries)];
            Work::new(format!("{shape}, {}", entries.name), problems)
        }));
    }
    all
}

/// Speeds of sides that answer differently would say nothing.
fn assert_writers_agree(all: &[Work]) {
    for side in WRITERS {
        for problem in all.iter().flat_map(|work| &work.problems) {
            assert!(need(problem) > 0, "not a problem with one objective");
            assert_eq!(compare_text(problem, &vec![7; TEXT_LEN], side), Ok(()));
        }
        for seed in 0..2_000 {
            assert_eq!(Mixed::new(seed).compare_texts(side), Ok(()));
        }
    }
}

fn assert_readers_agree(all: &[Work]) {
    let mut rng = Rng::new(9);
    let strange: Vec<Vec<u8>> = (0..4_000).map(|_| generated(&mut rng)).collect();
    let hostile = hostile::KINDS.map(|kind| (kind.text)(LEAST_WORDS).into_bytes());
    let texts = all.iter().flat_map(|work| &work.texts);
    let texts: Vec<&Vec<u8>> = texts.chain(&strange).chain(&hostile).collect();
    for side in READERS {
        for text in &texts {
            assert_eq!(compare_read(text, &[7; MAX_BYTES], side), Ok(()));
        }
        for seed in 0..2_000 {
            assert_eq!(Mixed::new(seed).compare_reads(side), Ok(()));
        }
    }
}

/// How many million bytes of text each side goes through in a second, with these inputs and an output of
/// so many bytes.
fn speeds(sides: [TextCall; 2], inputs: &[Vec<u8>], most: usize, bytes: usize) -> [f64; 2] {
    let call = |side: TextCall| {
        let mut output = vec![0; most];
        move || {
            for input in inputs {
                black_box(side(black_box(input), black_box(&mut output)));
            }
        }
    };
    measuring::best_speeds(sides.map(call), bytes)
}

fn print_row(work: &Work, [chooser, plain]: [f64; 2]) {
    let [records, text] = work.bytes();
    println!(
        "| {} | {} | {records} | {text} | {chooser:.0} | {plain:.0} | {:.2} |",
        work.name,
        work.problems.len(),
        chooser / plain,
    );
}

/// A table with a row for each work.
fn print_table(title: &str, all: &[Work], speeds: impl Fn(&Work) -> [f64; 2]) {
    println!("\n{title}\n");
    println!("| Problems | Number | Bytes | Bytes of text | Chooser | Plain Rust | Ratio |");
    println!("|---|--:|--:|--:|--:|--:|--:|");
    all.iter().for_each(|work| print_row(work, speeds(work)));
}

/// Hostile texts are made of so many words at least, and then of twice as many, and so on.
const LEAST_WORDS: usize = hostile::MOST_WORDS >> 4;

/// How many nanoseconds a byte of a hostile text takes, at sizes that double: in linear time it is always as
/// many.
fn print_growth() {
    println!("\nReading texts far outside the limits, nanoseconds a byte\n");
    println!("| Text | Bytes | Chooser | Plain Rust |");
    println!("|---|--:|--:|--:|");
    for kind in hostile::KINDS {
        for doubled in (0..5).map(|times| LEAST_WORDS << times) {
            let texts = [(kind.text)(doubled).into_bytes()];
            let bytes = texts[0].len();
            let speeds = speeds(READERS, &texts, MAX_BYTES, bytes);
            let [chooser, plain] = speeds.map(|speed| 1e3 / speed);
            println!("| {} | {bytes} | {chooser:.1} | {plain:.1} |", kind.name);
        }
    }
}

fn main() {
    let all = all_work();
    assert_writers_agree(&all);
    assert_readers_agree(&all);
    println!("The chooser and plain Rust write the same texts, and read them alike.");
    if !measuring::is_asked() {
        return;
    }
    println!(
        "MB of text a second; ratio: the chooser's speed over plain Rust's, 1 is equal and less is slower."
    );
    print_table("Writing", &all, |work| {
        speeds(WRITERS, &work.problems, TEXT_LEN, work.bytes()[1])
    });
    print_table("Reading", &all, |work| {
        speeds(READERS, &work.texts, MAX_BYTES, work.bytes()[1])
    });
    print_growth();
}
