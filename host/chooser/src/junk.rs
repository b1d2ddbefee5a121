//! Junk in buffers, and the seeded generator of random numbers that it comes from.

use frontier::lent::{BatchBuffers, Buffers};
use frontier::limits::MAX_BATCH;

/// SplitMix64: a small generator whose whole state is its seed, so a seed reproduces a case.
pub struct Rng(u64);

impl Rng {
    pub fn new(seed: u64) -> Rng {
        Rng(seed)
    }

    /// The next 64 random bits.
    pub fn bits(&mut self) -> u64 {
        self.0 = self.0.wrapping_add(0x9e37_79b9_7f4a_7c15);
        let z = (self.0 ^ (self.0 >> 30)).wrapping_mul(0xbf58_476d_1ce4_e5b9);
        let z = (z ^ (z >> 27)).wrapping_mul(0x94d0_49bb_1331_11eb);
        z ^ (z >> 31)
    }

    /// A number below `bound`, which is not 0. The small bias does no harm here.
    pub fn below(&mut self, bound: usize) -> usize {
        (self.bits() % bound as u64) as usize
    }

    /// A number below `bound`, the greater of two: the greatest sizes make the better problems.
    pub fn mostly_high(&mut self, bound: usize) -> usize {
        self.below(bound).max(self.below(bound))
    }

    /// A byte below `bound`, which is not 0.
    pub fn byte_below(&mut self, bound: u8) -> u8 {
        self.below(usize::from(bound)) as u8
    }

    /// True once in `times` on average.
    pub fn once_in(&mut self, times: usize) -> bool {
        self.below(times) == 0
    }

    /// The items in a random order.
    pub fn shuffle<T>(&mut self, items: &mut [T]) {
        for left in (1..items.len()).rev() {
            items.swap(left, self.below(left + 1));
        }
    }

    /// One of the items.
    pub fn pick<T: Copy>(&mut self, items: &[T]) -> T {
        items[self.below(items.len())]
    }
}

/// Buffers of these lengths with random contents.
pub fn junk(rng: &mut Rng, costs: usize, choices: usize, work: usize) -> Buffers {
    // One number for the whole work buffer: it is long, and any contents must do.
    let fill = rng.bits() as u32 | 1;
    Buffers {
        costs: (0..costs).map(|_| rng.bits() as u32).collect(),
        choices: (0..choices).map(|_| rng.bits() as u8).collect(),
        work: vec![fill; work],
    }
}

/// Buffers with room for 64 points of any problem, full of junk.
pub fn junk_buffers() -> Buffers {
    let mut lent = Buffers::full();
    fill_with_junk(&mut lent);
    lent
}

/// What stands in every byte of junk that is the same everywhere.
const JUNK: u8 = 0xa5;
const JUNK_NUMBER: u32 = u32::from_ne_bytes([JUNK; 4]);

/// Fills all of the buffers with the same junk.
pub fn fill_with_junk(lent: &mut Buffers) {
    lent.costs.fill(JUNK_NUMBER);
    lent.choices.fill(JUNK);
    lent.work.fill(JUNK_NUMBER);
}

/// Buffers with areas for as many problems as a batch may have, full of junk.
pub fn junk_batch_buffers() -> BatchBuffers {
    let mut lent = BatchBuffers::new(MAX_BATCH);
    lent.costs.fill(JUNK_NUMBER);
    lent.choices.fill(JUNK);
    lent.results.fill(JUNK_NUMBER);
    lent.work.fill(JUNK_NUMBER);
    lent
}

/// Areas of these lengths (costs, choices, results, work) with random contents.
pub fn junk_areas(rng: &mut Rng, [costs, choices, results, work]: [usize; 4]) -> BatchBuffers {
    let Buffers {
        costs,
        choices,
        work,
    } = junk(rng, costs, choices, work);
    BatchBuffers {
        costs,
        choices,
        results: (0..results).map(|_| rng.bits() as u32).collect(),
        work,
    }
}

/// How long the four buffers are.
pub fn lengths_of(lent: &BatchBuffers) -> [usize; 4] {
    let (costs, choices) = (lent.costs.len(), lent.choices.len());
    [costs, choices, lent.results.len(), lent.work.len()]
}
