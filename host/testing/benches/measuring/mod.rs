//! How fast the sides of a comparison are, and whether that is asked.

use std::env;
use std::time::{Duration, Instant};

/// One measurement takes at least this long.
const LEAST_TIME: Duration = Duration::from_millis(500);

/// Each side is measured this often, in turns; the fastest counts, as the least disturbed.
const ROUNDS: usize = 5;

/// So many calls go between two looks at the clock.
const BATCH: u32 = 16;

/// How many million bytes a second a call goes through that handles so many.
fn speed(call: &mut impl FnMut(), bytes: usize) -> f64 {
    let (start, mut calls) = (Instant::now(), 0);
    while start.elapsed() < LEAST_TIME {
        for _ in 0..BATCH {
            call();
        }
        calls += BATCH;
    }
    bytes as f64 * f64::from(calls) / start.elapsed().as_secs_f64() / 1e6
}

/// The best speed of each side. They take turns, so that a disturbance does not hit one side only.
pub fn best_speeds<const SIDES: usize>(
    mut sides: [impl FnMut(); SIDES],
    bytes: usize,
) -> [f64; SIDES] {
    let mut best = [0.0; SIDES];
    for _ in 0..ROUNDS {
        for (best, side) in best.iter_mut().zip(&mut sides) {
            *best = speed(side, bytes).max(*best);
        }
    }
    best
}

/// Whether it is to be measured: cargo says so. Otherwise the program is run as a test.
pub fn is_asked() -> bool {
    env::args().any(|argument| argument == "--bench")
}
