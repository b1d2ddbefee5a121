//! The random cases that laws are asked of, and the report of a case that fails.

use std::ops::Range;

use crate::random::{
    bad_sides, parted_problem, random_problem, random_sides, uncrossed_sides, Shape,
};
use chooser::junk::Rng;
use frontier::Problem;

use super::Verdict;

/// A random problem that its seed reproduces, and the generator for whatever goes with it.
pub struct Case {
    pub seed: u64,
    pub rng: Rng,
    pub problem: Problem,
    pub bytes: Vec<u8>,
}

impl Case {
    pub fn new(seed: u64) -> Case {
        let mut rng = Rng::new(seed);
        let problem = random_problem(&mut rng, &Shape::small());
        let bytes = problem.encode();
        Case {
            seed,
            rng,
            problem,
            bytes,
        }
    }

    /// Takes this problem in place of the random one.
    pub fn replace(&mut self, problem: Problem) {
        self.bytes = problem.encode();
        self.problem = problem;
    }

    /// A side list for a cut: mostly one that no table crosses, else one that some may cross or that
    /// 13 refuses. Every second time the problem is replaced by one that the sides part, since in
    /// most others nearly all variables are linked.
    pub fn cut_at_random(&mut self) -> Vec<u8> {
        let rng = &mut self.rng;
        match rng.below(20) {
            0 => bad_sides(rng, &self.problem),
            1 => random_sides(rng, &self.problem),
            2..=9 => uncrossed_sides(rng, &self.problem),
            10 => self.part(&Shape::many_variables()),
            _ => self.part(&Shape::small()),
        }
    }

    /// Takes a problem in two groups of variables, and gives the side list that parts them.
    fn part(&mut self, shape: &Shape) -> Vec<u8> {
        let (problem, sides) = parted_problem(&mut self.rng, shape);
        self.replace(problem);
        sides
    }
}

impl Drop for Case {
    /// Says which case failed, whether a law complained or a call panicked.
    fn drop(&mut self) {
        if std::thread::panicking() {
            let hex: String = self.bytes.iter().map(|b| format!("{b:02x}")).collect();
            eprintln!("seed {} bytes {hex}", self.seed);
        }
    }
}

/// Asks a law of the cases with seeds 0 and on; a complaint ends the test.
pub fn ask(cases: u64, law: impl Fn(&mut Case) -> Verdict) {
    ask_seeds(0..cases, law);
}

/// Asks a law of the cases with these seeds; a complaint ends the test.
pub fn ask_seeds(seeds: Range<u64>, law: impl Fn(&mut Case) -> Verdict) {
    for seed in seeds {
        let mut case = Case::new(seed);
        if let Err(complaint) = law(&mut case) {
            panic!("{complaint}");
        }
    }
}
