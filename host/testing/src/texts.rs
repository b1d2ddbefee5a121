//! Texts that a call writes: which bytes it is asked for, buffers of every length that matters, and the
//! comparison with the independent converter.

use std::fmt::Debug;

use crate::fence::{assert_fences, fenced, inside};
use crate::mixed::Mixed;
use crate::random::damage;
use crate::reading::read_problem;
use crate::wcsp::{from_text, in_one_objective, to_text};
use chooser::hex::to_hex;
use chooser::junk::Rng;
use frontier::lent::Answer;
use frontier::limits::{MAX_BYTES, TEXT_LEN};
use frontier::{Problem, Table, FORBIDDEN};

/// What lent bytes hold where they are all the same.
pub const JUNK: u8 = 0xa5;

/// A buffer of this length with random contents.
fn junk_bytes(rng: &mut Rng, length: usize) -> Vec<u8> {
    (0..length).map(|_| rng.bits() as u8).collect()
}

/// What stands beside the lent bytes.
const FENCE: u8 = 0x5c;

/// A call that writes bytes, on a buffer between fences, which must stand afterwards.
pub fn fenced_call<T>(call: fn(&[u8], &mut [u8]) -> T) -> impl Fn(&[u8], &mut [u8]) -> T {
    move |form, made| {
        let mut buffer = fenced(made, FENCE);
        let answer = call(form, inside(&mut buffer));
        assert_fences(&buffer, FENCE);
        made.copy_from_slice(inside(&mut buffer));
        answer
    }
}

/// How many bytes the text of a problem has; 0 where there is none.
pub fn need(problem: &[u8]) -> usize {
    to_text(problem, &mut vec![0; TEXT_LEN]).count as usize
}

/// Lengths of a text buffer: none, one, and around as many bytes as are needed.
pub fn lengths(rng: &mut Rng, need: usize) -> [usize; 6] {
    let less = need.saturating_sub(1);
    [0, 1, less, need, need + 1, need + 2 + rng.below(200)]
}

/// Compares a call that writes text with the independent converter on one problem, each lent a copy of
/// the buffer, and has the converter read back what was written. A difference is told with the bytes
/// in hex.
pub fn compare_text(
    problem: &[u8],
    lent: &[u8],
    call: impl Fn(&[u8], &mut [u8]) -> Answer,
) -> Result<(), String> {
    let compared = compare_forms(problem, lent, call, to_text);
    let back = compared.and_then(|(answer, left)| {
        match answer.number > 0 || says_again(&left[..answer.count as usize], problem) {
            true => Ok(()),
            false => Err("the text does not give the problem back".into()),
        }
    });
    let (length, bytes) = (lent.len(), to_hex(problem));
    back.map_err(|difference| format!("{difference}, length {length}, bytes {bytes}"))
}

/// Compares a call that writes bytes with the independent one, each lent a copy of the buffer; what it answers
/// and leaves there, or the difference.
pub fn compare_forms<T: Debug + PartialEq>(
    form: &[u8],
    lent: &[u8],
    call: impl Fn(&[u8], &mut [u8]) -> T,
    independent: fn(&[u8], &mut [u8]) -> T,
) -> Result<(T, Vec<u8>), String> {
    let (mut left, mut right) = (lent.to_vec(), lent.to_vec());
    let answer = call(form, &mut left);
    let expected = independent(form, &mut right);
    if answer != expected {
        return Err(format!(
            "the call answers {answer:?}, the independent one {expected:?}"
        ));
    }
    match (0..lent.len()).find(|&i| left[i] != right[i]) {
        None => Ok((answer, left)),
        Some(i) => {
            let (left, right) = (left[i], right[i]);
            Err(format!(
                "after {answer:?} byte {i} is {left}, by the independent call {right}"
            ))
        }
    }
}

/// Whether a text that was written of a problem says its records: the same, but that an entry which forbids has
/// become one above the ceiling.
fn says_again(text: &[u8], problem: &[u8]) -> bool {
    let mut read = vec![0; MAX_BYTES];
    let answer = from_text(text, &mut read);
    let written = read_problem(problem).expect("a problem that was written");
    answer.number == 0 && read[..answer.count as usize] == back(&written.problem).encode()
}

/// What a problem is after there and back: a forbidden entry has become the upper bound.
pub fn back(problem: &Problem) -> Problem {
    let mut problem = problem.clone();
    let bound = problem.ceilings[0] + 1;
    let entries = problem.tables.iter_mut().flat_map(|table| &mut table.costs);
    entries
        .filter(|entry| **entry == FORBIDDEN)
        .for_each(|entry| *entry = bound);
    problem
}

/// What a choice costs by the records of a problem with one objective; none if it is not allowed.
pub fn allowed_cost(problem: &Problem, choice: &[u8]) -> Option<u64> {
    let step = |index: usize, &variable: &u8| {
        let variable = usize::from(variable);
        index * usize::from(problem.domains[variable]) + usize::from(choice[variable])
    };
    let entry = |table: &Table| table.costs[table.scope.iter().fold(0, step)];
    let entries: Vec<u32> = problem.tables.iter().map(entry).collect();
    let cost = entries.iter().map(|&entry| u64::from(entry)).sum();
    let is_allowed = !entries.contains(&FORBIDDEN) && cost <= u64::from(problem.ceilings[0]);
    is_allowed.then_some(cost)
}

/// Now and then gives a problem with one objective a ceiling at the end of its range, and a forbidden entry or
/// one just below it.
pub fn draw_ends(rng: &mut Rng, problem: &mut Problem) {
    if rng.once_in(4) {
        problem.ceilings[0] = rng.pick(&[0, FORBIDDEN - 2, FORBIDDEN - 1, FORBIDDEN]);
    }
    for table in &mut problem.tables {
        if rng.once_in(4) {
            let place = rng.below(table.costs.len());
            table.costs[place] = rng.pick(&[FORBIDDEN, FORBIDDEN, FORBIDDEN - 1]);
        }
    }
}

impl Mixed {
    /// What a text call is asked for: the case's bytes, and those of an accepted problem also with all
    /// tables in one objective, good, with ceilings and entries at the ends of their range, and damaged.
    pub fn text_inputs(&self) -> Vec<Vec<u8>> {
        let mut inputs = vec![self.bytes.clone()];
        if let Ok(reading) = read_problem(&self.bytes) {
            let rng = &mut self.text_rng();
            let good = in_one_objective(&reading.problem);
            let mut ends = good.clone();
            draw_ends(rng, &mut ends);
            let mut damaged = good.encode();
            damage(rng, &mut damaged);
            inputs.extend([good.encode(), ends.encode(), damaged]);
        }
        inputs
    }

    /// A generator of its own, so that the case is the same for the other calls.
    pub fn text_rng(&self) -> Rng {
        Rng::new(self.seed ^ 0x7e87)
    }

    /// Compares a call that writes text with the independent converter, lent a buffer with junk of one
    /// of the lengths that matter. A difference is told with the seed and the bytes.
    pub fn compare_texts(&self, call: impl Fn(&[u8], &mut [u8]) -> Answer) -> Result<(), String> {
        self.compare_each(self.text_inputs(), need, |problem, lent| {
            compare_text(problem, lent, &call)
        })
    }

    /// Compares a call that writes bytes on each input, with buffers of all lengths around what it needs.
    pub fn compare_lengths(
        &self,
        inputs: Vec<Vec<u8>>,
        need: fn(&[u8]) -> usize,
        compare: impl Fn(&[u8], &[u8]) -> Result<(), String>,
    ) -> Result<(), String> {
        self.for_each_input(inputs, |rng, input| {
            let mut lengths = lengths(rng, need(input)).into_iter();
            lengths.try_for_each(|length| compare(input, &vec![JUNK; length]))
        })
    }

    /// The same with a buffer of one of these lengths, which holds anything.
    pub fn compare_each(
        &self,
        inputs: Vec<Vec<u8>>,
        need: fn(&[u8]) -> usize,
        compare: impl Fn(&[u8], &[u8]) -> Result<(), String>,
    ) -> Result<(), String> {
        self.for_each_input(inputs, |rng, input| {
            let length = lengths(rng, need(input))[rng.below(6)];
            compare(input, &junk_bytes(rng, length))
        })
    }

    /// A difference is told with the seed.
    fn for_each_input(
        &self,
        inputs: Vec<Vec<u8>>,
        compare: impl Fn(&mut Rng, &[u8]) -> Result<(), String>,
    ) -> Result<(), String> {
        let mut rng = self.text_rng();
        inputs.iter().try_for_each(|input| {
            let compared = compare(&mut rng, input);
            compared.map_err(|difference| format!("seed {}: {difference}", self.seed))
        })
    }
}
