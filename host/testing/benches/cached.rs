//! Answers from a store: the time of a hit against that of the solve that it saves, on a night's larger problems; and
//! against plain comparisons of the whole store. Command: `cargo bench --offline --bench cached`; see
//! `docs/PERFORMANCE.md`.

mod measuring;

use std::hint::black_box;
use std::time::{Duration, Instant};

use chooser::junk::Rng;
use frontier::lent::{self, Buffers, CachedAnswer};
use frontier::limits::{MAX_SLOTS, SLOT_BYTES};
use frontier::{Problem, Table};
use testing::cache::compare_cached;
use testing::layouts::random_layout;
use testing::stored::{nightly, Stored};

/// A problem of the night is measured if it has so many variables.
const LEAST_VARIABLES: usize = 15;

/// A hit is to be so many times as fast as the solve that it saves.
const GOAL: f64 = 100.0;

/// A hit is compared with so many comparisons of the whole store.
const COMPARISONS: usize = 3;

/// A full store, the buffers that are lent with it, and what it holds, each problem in a layout that it was not
/// stored in.
struct Full {
    store: Vec<u8>,
    lent: Buffers,
    problems: Vec<Vec<u8>>,
}

impl Full {
    /// As many problems as there are slots.
    fn new(rng: &mut Rng, problems: &[Problem]) -> Full {
        assert_eq!(problems.len(), MAX_SLOTS);
        let mut full = Full {
            store: vec![0; MAX_SLOTS * SLOT_BYTES],
            lent: Buffers::full(),
            problems: Vec::new(),
        };
        for problem in problems {
            let found = full.ask(&problem.encode());
            assert_eq!((found.answer.number, found.hit), (0, 0));
            full.problems.push(random_layout(rng, problem).encode());
        }
        full
    }

    fn ask(&mut self, problem: &[u8]) -> CachedAnswer {
        let store = black_box(&mut self.store);
        let lent = black_box(&mut self.lent);
        lent.lend_cached(lent::solve_cached, black_box(problem), store)
    }
}

/// Problems of one length, each nearly as long as there may be, whose forms differ in nothing but their last bytes.
fn alike() -> Vec<Problem> {
    let table = |objective: u8, last: u32| {
        let mut costs = vec![1; 512];
        costs[511] = last;
        Table::new(objective, &[0, 1, 2], &costs)
    };
    let problem = |number: usize| {
        let mut tables = vec![table(0, 1); 28];
        // The record of objective 1 is the last one of the form.
        tables.push(table(1, (number as u32) << 24));
        Problem {
            ceilings: vec![u32::MAX; 2],
            domains: vec![8; 3],
            tables,
        }
    };
    (0..MAX_SLOTS).map(problem).collect()
}

/// The larger problems of a night that have at most 64 points.
fn larger() -> Vec<Stored> {
    let mut night = nightly();
    night.retain(|stored| stored.problem.variables() >= LEAST_VARIABLES);
    night.retain(|stored| stored.expected.starts_with("points "));
    night
}

/// The shortest of several measurements of a call, each of as many calls as fill a millisecond.
fn shortest(mut call: impl FnMut()) -> Duration {
    let mut best = Duration::MAX;
    for _ in 0..5 {
        let (start, mut calls) = (Instant::now(), 0);
        while calls == 0 || start.elapsed() < Duration::from_millis(1) {
            call();
            calls += 1;
        }
        best = best.min(start.elapsed() / calls);
    }
    best
}

/// A problem of the night with the times of its solve and of its hit.
struct Saved {
    name: String,
    solve: Duration,
    hit: Duration,
}

impl Saved {
    fn ratio(&self) -> f64 {
        self.solve.as_secs_f64() / self.hit.as_secs_f64()
    }
}

/// Measures the solve of a problem, stores it, and measures the hit in a layout that it was not stored in.
fn measure_saved(rng: &mut Rng, full: &mut Full, stored: &Stored) -> Saved {
    let other = random_layout(rng, &stored.problem).encode();
    let mut lent = Buffers::full();
    let solve = shortest(|| {
        black_box(lent.lend(lent::solve_problem, black_box(&stored.bytes)));
    });
    full.ask(&stored.bytes);
    assert_eq!(full.ask(&other).hit, 1, "{}", stored.name);
    let hit = shortest(|| {
        black_box(full.ask(&other));
    });
    Saved {
        name: stored.name.clone(),
        solve,
        hit,
    }
}

fn print_saved(night: &[Stored], full: &mut Full) {
    let mut rng = Rng::new(2);
    let mut all: Vec<Saved> = night
        .iter()
        .map(|stored| measure_saved(&mut rng, full, stored))
        .collect();
    all.sort_by(|one, other| one.ratio().total_cmp(&other.ratio()));
    let below = all.iter().filter(|saved| saved.ratio() < GOAL).count();
    println!(
        "\nA hit against the solve that it saves: {} problems of the night with {LEAST_VARIABLES} and more \
         variables\n\nleast {:.0} times as fast, median {:.0}, below {GOAL:.0}: {below} of {}\n",
        all.len(),
        all[0].ratio(),
        all[all.len() / 2].ratio(),
        all.len(),
    );
    println!("| Problem | Solve, µs | Hit, µs | Ratio |");
    println!("|---|--:|--:|--:|");
    let shown = all[..10].iter().chain([&all[all.len() / 2]]);
    for saved in shown.chain(all.last()) {
        let [solve, hit] = [saved.solve, saved.hit].map(|time| time.as_secs_f64() * 1e6);
        let ratio = saved.ratio();
        println!("| {} | {solve:.1} | {hit:.1} | {ratio:.0} |", saved.name);
    }
}

/// A row: hits on these problems of a full store, one after another, against comparisons of the store with a copy.
fn print_row(name: &str, full: &mut Full, problems: &[Vec<u8>]) {
    let one = full.store.clone();
    let other = one.clone();
    let hits: Box<dyn FnMut()> = Box::new(|| {
        for problem in problems {
            black_box(full.ask(problem));
        }
    });
    let comparisons: Box<dyn FnMut()> = Box::new(|| {
        for _ in 0..COMPARISONS * problems.len() {
            assert!(black_box(&one) == black_box(&other));
        }
    });
    // A speed of 1 is a million hits a second, so one in a microsecond.
    let speeds = measuring::best_speeds([hits, comparisons], problems.len());
    let [hit, compared] = speeds.map(|speed| 1.0 / speed);
    let bytes = problems.iter().map(Vec::len).sum::<usize>() / problems.len();
    println!(
        "| {name} | {bytes} | {hit:.1} | {compared:.1} | {:.2} |",
        hit / compared
    );
}

fn print_hits([typical, worst]: [&mut Full; 2]) {
    println!(
        "\nA hit in a full store of {MAX_SLOTS} slots against {COMPARISONS} comparisons of the whole store; \
         ratio: the hit's time over theirs, less is faster\n"
    );
    println!("| Problems | Bytes | Hit, µs | Comparisons, µs | Ratio |");
    println!("|---|--:|--:|--:|--:|");
    let problems = typical.problems.clone();
    print_row("of the night, all slots", typical, &problems);
    print_row(
        "of the night, last slot",
        typical,
        &problems[MAX_SLOTS - 1..],
    );
    let problems = worst.problems.clone();
    print_row("alike but for the end, all slots", worst, &problems);
    print_row(
        "alike but for the end, last slot",
        worst,
        &problems[MAX_SLOTS - 1..],
    );
}

/// Times of wrong answers would say nothing: hits answer as the plain call does, and leave the store alone.
fn assert_hits_agree(full: &mut Full) {
    for problem in full.problems.clone() {
        let compared = compare_cached(
            lent::solve_problem,
            &problem,
            &full.lent,
            &full.store,
            lent::solve_cached,
        );
        let left = compared.unwrap_or_else(|difference| panic!("{difference}"));
        assert!(left.found.hit == 1 && left.store == full.store);
        let mut due = full.lent.clone();
        let answer = due.lend(lent::solve_problem, &problem);
        assert_eq!((left.found.answer, left.lent), (answer, due));
    }
}

fn main() {
    let mut rng = Rng::new(1);
    let night = larger();
    let mut quick: Vec<&Stored> = night.iter().collect();
    quick.sort_by_key(|stored| stored.problem.choices());
    let typical: Vec<Problem> = quick[..MAX_SLOTS]
        .iter()
        .map(|stored| stored.problem.clone())
        .collect();
    let mut typical = Full::new(&mut rng, &typical);
    let mut worst = Full::new(&mut rng, &alike());
    assert_hits_agree(&mut typical);
    assert_hits_agree(&mut worst);
    println!("Hits answer as the plain call does.");
    if !measuring::is_asked() {
        return;
    }
    print_hits([&mut typical, &mut worst]);
    print_saved(&night, &mut typical);
}
