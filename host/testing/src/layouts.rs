//! One problem in several layouts: its cost records in another order, their scopes and tables turned. And the
//! canonical call on them: what it is asked for, and the comparison with the independent one.

use crate::canonical::canonical;
use crate::mixed::Mixed;
use crate::random::damage;
use crate::reading::read_problem;
use crate::texts::compare_forms;
use crate::turned::{falling, rising, shuffled};
use chooser::hex::to_hex;
use chooser::junk::Rng;
use frontier::lent::Keyed;
use frontier::Problem;

/// The valid problem in a random layout.
pub fn random_layout(rng: &mut Rng, problem: &Problem) -> Problem {
    let mut layout = shuffled(rng, problem);
    rng.shuffle(&mut layout.tables);
    layout
}

/// The records from the last to the first.
pub fn reversed(mut problem: Problem) -> Problem {
    problem.tables.reverse();
    problem
}

/// The valid problem in layouts of every kind: records or scopes alone in another order, and both.
pub fn layouts(rng: &mut Rng, problem: &Problem) -> [Problem; 7] {
    [
        problem.clone(),
        reversed(problem.clone()),
        rising(problem),
        falling(problem),
        reversed(falling(problem)),
        random_layout(rng, problem),
        random_layout(rng, problem),
    ]
}

/// How many bytes the form of a problem has; 0 where it is refused.
pub fn form_need(problem: &[u8]) -> usize {
    read_problem(problem).map_or(0, |_| problem.len())
}

/// Compares a canonical call with the independent one on one problem, each lent a copy of the buffer. A
/// difference is told with the bytes in hex.
pub fn compare_canonical(
    problem: &[u8],
    lent: &[u8],
    call: impl Fn(&[u8], &mut [u8]) -> Keyed,
) -> Result<(), String> {
    let compared = compare_forms(problem, lent, call, canonical);
    compared.map(|_| ()).map_err(|difference| {
        let (length, bytes) = (lent.len(), to_hex(problem));
        format!("{difference}, length {length}, bytes {bytes}")
    })
}

impl Mixed {
    /// What a canonical call is asked for: the case's bytes, and those of an accepted problem also in two further
    /// layouts, good and damaged.
    pub fn form_inputs(&self) -> Vec<Vec<u8>> {
        let mut inputs = vec![self.bytes.clone()];
        if let Ok(reading) = read_problem(&self.bytes) {
            let mut rng = self.text_rng();
            let good = random_layout(&mut rng, &reading.problem).encode();
            let mut damaged = reversed(falling(&reading.problem)).encode();
            damage(&mut rng, &mut damaged);
            inputs.extend([good, damaged]);
        }
        inputs
    }

    /// Compares a canonical call with the independent one, lent a buffer with junk of one of the lengths that
    /// matter. A difference is told with the seed and the bytes.
    pub fn compare_canonical(
        &self,
        call: impl Fn(&[u8], &mut [u8]) -> Keyed,
    ) -> Result<(), String> {
        self.compare_each(self.form_inputs(), form_need, |problem, lent| {
            compare_canonical(problem, lent, &call)
        })
    }
}
