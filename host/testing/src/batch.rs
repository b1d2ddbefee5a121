//! The batch call, independent: by the prose alone (reference, section 16), frames are read and plain calls made in
//! turn on the areas. And batches of mixed problems, with the comparison of a call with the independent one.

use crate::examples::{brimful, stairs_of};
use crate::mixed::{has_few_choices, Mixed};
use crate::random::{damage, random_problem, Shape};
use chooser::hex::to_hex;
use chooser::junk::{junk_areas, lengths_of, Rng};
use frontier::lent::{frame, Answer, BatchBuffers, SolveCall};
use frontier::limits::{LEAST_WORK, MAX_BYTES};
use frontier::Refusal;

/// The most problems of a batch.
pub const MOST: usize = 16;

/// The bytes before each problem, and the elements of its areas of costs, choices and results, as the reference tells
/// them.
pub const HEAD: usize = 6;
pub const COSTS: usize = 256;
pub const CHOICES: usize = 1_536;
pub const RESULTS: usize = 3;

/// The problem in the frame that starts these bytes, and what is behind it.
pub fn first_frame(bytes: &[u8]) -> Option<(&[u8], &[u8])> {
    let (length, rest) = bytes.strip_prefix(b"BP")?.split_first_chunk()?;
    rest.split_at_checked(u32::from_le_bytes(*length) as usize)
}

/// The problems of bytes that are nothing but frames.
pub fn problems_in(batch: &[u8]) -> Option<Vec<&[u8]>> {
    problems_by(first_frame, batch)
}

/// The same with another way to read the first frame.
pub fn problems_by(first: FirstFrame, batch: &[u8]) -> Option<Vec<&[u8]>> {
    let (mut problems, mut rest) = (Vec::new(), batch);
    while !rest.is_empty() {
        let (problem, behind) = first(rest)?;
        problems.push(problem);
        rest = behind;
    }
    Some(problems)
}

/// A way to read the first frame, as `first_frame` is.
pub type FirstFrame = for<'a> fn(&'a [u8]) -> Option<(&'a [u8], &'a [u8])>;

/// The problems of a batch, with buffers of these lengths (costs, choices, results, work); or refusal 21 or 12.
pub fn judge(batch: &[u8], lengths: [usize; 4]) -> Result<Vec<&[u8]>, Refusal> {
    let problems = problems_in(batch).ok_or(Refusal::Batch)?;
    let [costs, choices, results, work] = lengths;
    let areas = [costs / COSTS, choices / CHOICES, results / RESULTS, MOST];
    if areas.iter().any(|&areas| areas < problems.len()) {
        return Err(Refusal::Batch);
    }
    if work < LEAST_WORK {
        return Err(Refusal::Work);
    }
    Ok(problems)
}

/// A plain call for problem `k` on its areas of the buffers; its number, place and count go to the results.
pub fn solve_one(
    fresh: SolveCall,
    problem: &[u8],
    k: usize,
    costs: &mut [u32],
    choices: &mut [u8],
    results: &mut [u32],
    work: &mut [u32],
) -> Answer {
    let costs = &mut costs[COSTS * k..][..COSTS];
    let choices = &mut choices[CHOICES * k..][..CHOICES];
    let answer = fresh(problem, costs, choices, work);
    let told = [answer.number.into(), answer.place, answer.count];
    results[RESULTS * k..][..RESULTS].copy_from_slice(&told);
    answer
}

/// The batch call, with this plain call for the problems.
pub fn solve_batch(
    fresh: SolveCall,
    batch: &[u8],
    costs: &mut [u32],
    choices: &mut [u8],
    results: &mut [u32],
    work: &mut [u32],
) -> Answer {
    let lengths = [costs.len(), choices.len(), results.len(), work.len()];
    let problems = match judge(batch, lengths) {
        Err(refusal) => return refusal.into(),
        Ok(problems) => problems,
    };
    for (k, problem) in problems.iter().enumerate() {
        solve_one(fresh, problem, k, costs, choices, results, work);
    }
    Answer::accepted(problems.len())
}

// ---- comparison

/// What a batch call has answered and left.
pub struct Left {
    pub answer: Answer,
    pub lent: BatchBuffers,
}

/// The first place in which two buffers of one length differ, told with both elements.
fn first_difference<T: PartialEq + ToString>(
    name: &str,
    left: &[T],
    right: &[T],
) -> Option<String> {
    let place = (0..left.len()).find(|&i| left[i] != right[i])?;
    let [left, right] = [left, right].map(|buffer| buffer[place].to_string());
    Some(format!("{name}[{place}] is {left} instead of {right}"))
}

/// Compares a batch call with the independent one, each lent a copy of the buffers. A difference is told with the bytes
/// in hex.
pub fn compare_batch(
    fresh: SolveCall,
    batch: &[u8],
    lent: &BatchBuffers,
    call: impl Fn(&[u8], &mut [u32], &mut [u8], &mut [u32], &mut [u32]) -> Answer,
) -> Result<Left, String> {
    let [mut left, mut right] = [lent.clone(), lent.clone()];
    let answer = left.lend(call, batch);
    let expected = right.lend(
        |batch, costs, choices, results, work| {
            solve_batch(fresh, batch, costs, choices, results, work)
        },
        batch,
    );
    let answers = (answer != expected).then(|| format!("it is {answer:?} instead of {expected:?}"));
    let difference = answers
        .or_else(|| first_difference("costs", &left.costs, &right.costs))
        .or_else(|| first_difference("choices", &left.choices, &right.choices))
        .or_else(|| first_difference("results", &left.results, &right.results))
        .or_else(|| first_difference("work", &left.work, &right.work));
    match difference {
        None => Ok(Left { answer, lent: left }),
        Some(difference) => {
            let (lengths, bytes) = (lengths_of(lent), to_hex(batch));
            Err(format!(
                "after {answer:?} {difference}, lengths {lengths:?}, bytes {bytes}"
            ))
        }
    }
}

/// The lengths of buffers with exactly the areas of so many problems, and of the least work memory.
pub fn exact_lengths(problems: usize) -> [usize; 4] {
    let [costs, choices, results] = [COSTS, CHOICES, RESULTS].map(|area| area * problems);
    [costs, choices, results, LEAST_WORK]
}

// ---- mixed batches

/// The bytes of one problem of a batch: mostly a small problem, damaged or not; else nothing, a few bytes of junk, a
/// list of 64 points or of more, or around 60,000 bytes.
pub fn mixed_bytes(rng: &mut Rng) -> Vec<u8> {
    match rng.below(60) {
        0..=3 => Vec::new(),
        4..=5 => (0..rng.below(20)).map(|_| rng.bits() as u8).collect(),
        6..=7 => stairs_of(64 + rng.below(2) as u32).encode(),
        8 if rng.once_in(3) => vec![rng.bits() as u8; MAX_BYTES + rng.below(2)],
        9 if rng.once_in(12) => brimful().encode(),
        kind => {
            let mut bytes = random_problem(rng, &Shape::small()).encode();
            if kind % 3 == 0 {
                damage(rng, &mut bytes);
            }
            bytes
        }
    }
}

/// Changes the framing of a batch, which may be right by chance afterwards: a byte of a frame's head, the length in it,
/// the end of the batch, or a byte anywhere.
pub fn damage_frames(rng: &mut Rng, batch: &mut Vec<u8>) {
    let heads = frame_starts(batch);
    let Some(&head) = heads.get(rng.below(heads.len().max(1))) else {
        return batch.extend((0..1 + rng.below(8)).map(|_| rng.pick(b"BP\0\x01")));
    };
    let left = batch.len() - head - HEAD;
    match rng.below(8) {
        0 => batch.truncate(rng.below(batch.len())),
        1 => batch.extend((0..1 + rng.below(8)).map(|_| rng.pick(b"BP\0\x01"))),
        2 => batch.truncate(head + rng.below(HEAD)),
        3 => batch[head + rng.below(HEAD)] ^= 1 << rng.below(8),
        4 => batch[head + rng.below(HEAD)] = rng.bits() as u8,
        5 => {
            let place = rng.below(batch.len());
            batch[place] = rng.bits() as u8;
        }
        _ => {
            let lengths = [0, 1, left, left + 1, left + HEAD, left.saturating_sub(1)];
            let lengths = [&lengths[..], &[MAX_BYTES, MAX_BYTES + 1, 0xffff_ffff]].concat();
            put_length(batch, head, rng.pick(&lengths));
        }
    }
}

/// Where the frames of a batch start.
pub fn frame_starts(batch: &[u8]) -> Vec<usize> {
    let (mut starts, mut rest) = (Vec::new(), batch);
    while let Some((_, behind)) = first_frame(rest) {
        starts.push(batch.len() - rest.len());
        rest = behind;
    }
    starts
}

/// Writes a length into the frame that starts there.
pub fn put_length(batch: &mut [u8], start: usize, length: usize) {
    let length = u32::try_from(length).expect("it fits four bytes");
    batch[start + 2..start + HEAD].copy_from_slice(&length.to_le_bytes());
}

/// Lengths of buffers for so many problems: mostly with all areas and enough work memory, now and then with one of them
/// too short, or longer.
fn mixed_lengths(rng: &mut Rng, problems: usize) -> [usize; 4] {
    let mut lengths = exact_lengths(problems);
    for (length, area) in lengths.iter_mut().zip([COSTS, CHOICES, RESULTS, 100]) {
        *length += rng.pick(&[0, 0, 1, area]);
    }
    if rng.once_in(4) {
        let length = &mut lengths[rng.below(4)];
        *length = rng.pick(&[0, *length / 2, length.saturating_sub(1)]);
    }
    lengths
}

/// A batch, and the buffers that are lent for it.
pub struct Batch {
    pub bytes: Vec<u8>,
    pub lent: BatchBuffers,
}

impl Batch {
    /// A batch of these problems, whose framing is damaged now and then, with buffers that are too short now and then.
    /// Where a problem has too many choices to go through, the work buffer is too short.
    fn mixed(rng: &mut Rng, problems: &[Vec<u8>]) -> Batch {
        let slices: Vec<&[u8]> = problems.iter().map(Vec::as_slice).collect();
        let mut bytes = frame(&slices);
        if rng.once_in(4) {
            damage_frames(rng, &mut bytes);
        }
        let mut lengths = mixed_lengths(rng, problems.len());
        let found = problems_in(&bytes).unwrap_or_default();
        if !found.iter().all(|problem| has_few_choices(problem)) {
            lengths[3] = LEAST_WORK - 1;
        }
        let lent = junk_areas(rng, lengths);
        Batch { bytes, lent }
    }
}

impl Mixed {
    /// The batch of the case: up to 17 problems, the case's own among them. Its generator is its own, so that the case
    /// is the same for the other calls.
    pub fn batch(&self) -> Batch {
        let mut rng = Rng::new(self.seed ^ 0xba7c);
        let count = rng.pick(&[0, 1, 1, 2, 2, 3, 3, 4, 5, 7, 15, 16, 17]);
        let mut problems: Vec<Vec<u8>> = (0..count).map(|_| mixed_bytes(&mut rng)).collect();
        if count > 0 {
            problems[rng.below(count)] = self.bytes.clone();
        }
        Batch::mixed(&mut rng, &problems)
    }

    /// Compares a batch call with the independent one, which asks the brute force: the answer and all that is left in
    /// the buffers. A difference is told with the seed and the bytes.
    pub fn compare_batch(
        &self,
        call: impl Fn(&[u8], &mut [u32], &mut [u8], &mut [u32], &mut [u32]) -> Answer,
    ) -> Result<Left, String> {
        let Batch { bytes, lent } = self.batch();
        let compared = compare_batch(crate::brute::solve_problem, &bytes, &lent, call);
        compared.map_err(|difference| format!("seed {}: {difference}", self.seed))
    }
}
