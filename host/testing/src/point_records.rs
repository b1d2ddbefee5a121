//! PointRecord records: junk in them, and the comparison of a call that writes them with the brute force.

use crate::brute::list_points;
use crate::mixed::Mixed;
use chooser::hex::to_hex;
use chooser::junk::Rng;
use frontier::lent::{Answer, PointRecord};

/// A point record with random contents.
pub fn junk_point(rng: &mut Rng) -> PointRecord {
    PointRecord {
        costs: [0; 4].map(|_: u32| rng.bits() as u32),
        choice: [0; 24].map(|_: u8| rng.bits() as u8),
    }
}

/// A list of so many point records with random contents.
pub fn junk_points(rng: &mut Rng, length: usize) -> Vec<PointRecord> {
    (0..length).map(|_| junk_point(rng)).collect()
}

/// Compares a call that writes point records with the brute force on one problem, each lent a copy
/// of the list and of the work buffer. A difference is told with the bytes in hex.
pub fn compare_points(
    problem: &[u8],
    points: &[PointRecord],
    work: &[u32],
    call: impl Fn(&[u8], &mut [PointRecord], &mut [u32]) -> Answer,
) -> Result<(), String> {
    let (mut left, mut right) = (points.to_vec(), points.to_vec());
    let (mut left_work, mut right_work) = (work.to_vec(), work.to_vec());
    let answer = call(problem, &mut left, &mut left_work);
    let expected = list_points(problem, &mut right, &mut right_work);
    let difference = if answer != expected {
        format!("the call answers {answer:?}, the brute force {expected:?}")
    } else if let Some(i) = (0..points.len()).find(|&i| left[i] != right[i]) {
        let (left, right) = (left[i], right[i]);
        format!("the call leaves record {i} as {left:?}, the brute force as {right:?}")
    } else if left_work != right_work {
        format!("after {answer:?} the call leaves other work memory than the brute force")
    } else {
        return Ok(());
    };
    let (lengths, bytes) = ([points.len(), work.len()], to_hex(problem));
    Err(format!("{difference}, lengths {lengths:?}, bytes {bytes}"))
}

impl Mixed {
    /// Compares a call that writes point records with the brute force, lent a list with junk that
    /// has room for no point, for some, or for more than are ever listed. A difference is told with
    /// the seed and the bytes.
    pub fn compare_points(
        &self,
        call: impl Fn(&[u8], &mut [PointRecord], &mut [u32]) -> Answer,
    ) -> Result<(), String> {
        // From a generator of its own, so that the case is the same for the other calls.
        let mut rng = Rng::new(!self.seed);
        let length = rng.pick(&[0, 1, 2, 3, 4, 8, 20, 64, 65, 70]);
        let points = junk_points(&mut rng, length);
        let compared = compare_points(&self.bytes, &points, &self.lent.work, call);
        compared.map_err(|difference| format!("seed {}: {difference}", self.seed))
    }
}
