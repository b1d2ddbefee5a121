//! Lists of points with buffers of their own, by any call and by the brute force, and the text of the
//! list program.

use frontier::lent::{Answer, Buffers, Halves, SolveCall};
use frontier::{Point, Problem, Refusal};

use crate::brute::{solve_cut, solve_problem};
use crate::reading::read_problem;

/// What a cut call lists, and the two halves' frontier sizes.
pub type Cut = (Vec<Listed>, [u32; 2]);

/// A listed point: its p costs and its n values.
#[derive(Clone, Debug, PartialEq, Eq)]
pub struct Listed {
    pub costs: Vec<u32>,
    pub choice: Vec<u8>,
}

impl Listed {
    /// A point from slices, so that expected lists can be written as literals.
    pub fn new(costs: &[u32], choice: &[u8]) -> Listed {
        Listed {
            costs: costs.to_vec(),
            choice: choice.to_vec(),
        }
    }
}

impl From<Point<'_>> for Listed {
    fn from(point: Point) -> Listed {
        Listed::new(point.costs, point.choice)
    }
}

/// The points that an answer has left in the buffers.
pub fn listed(lent: &Buffers, bytes: &[u8], answer: Answer) -> Result<Vec<Listed>, Refusal> {
    let list = lent.listed(bytes, answer)?;
    accepted_problem(bytes);
    let points = list
        .points()
        .map(|point| Listed::new(point.costs, point.choice));
    Ok(points.collect())
}

/// The problem in bytes that a call has accepted. Where the reader refuses them the call is wrong,
/// and to go on would hide it.
fn accepted_problem(bytes: &[u8]) -> Problem {
    match read_problem(bytes) {
        Ok(reading) => reading.problem,
        Err(refusal) => panic!("a call has accepted bytes that are refused: {refusal:?}"),
    }
}

/// The frontier list of a problem by a flat call, with room for 64 points.
pub fn frontier_by(call: SolveCall, bytes: &[u8]) -> Result<Vec<Listed>, Refusal> {
    let mut lent = Buffers::full();
    let answer = lent.lend(call, bytes);
    listed(&lent, bytes, answer)
}

/// The list and the half sizes of a problem by a cut call, with room for 64 points.
pub fn cut_by(
    call: impl Fn(&[u8], &[u8], &mut [u32], &mut [u8], &mut [u32]) -> Halves,
    bytes: &[u8],
    sides: &[u8],
) -> Result<Cut, Refusal> {
    let mut lent = Buffers::full();
    let halves = lent.lend_cut(call, bytes, sides);
    let list = listed(&lent, bytes, halves.answer)?;
    Ok((list, [halves.first, halves.second]))
}

/// Numbers with one space between neighbours, and one space after the last.
fn spaced<T: ToString>(numbers: &[T]) -> String {
    numbers.iter().map(|x| x.to_string() + " ").collect()
}

/// What the list program prints for a problem that a flat call answers, lent these
/// buffers; they must have room for 64 points.
pub fn list_text_by(call: SolveCall, lent: &mut Buffers, bytes: &[u8]) -> String {
    let answer = lent.lend(call, bytes);
    answer_text(lent, bytes, answer)
}

/// What the list program prints for a problem with this answer, whose list is in the buffers.
pub fn answer_text(lent: &Buffers, bytes: &[u8], answer: Answer) -> String {
    let list = match listed(lent, bytes, answer) {
        Ok(list) => list,
        Err(refusal) => return format!("refused {} at {}\n", refusal.number(), refusal.place()),
    };
    let problem = accepted_problem(bytes);
    let (p, n) = (problem.objectives(), problem.variables());
    let mut text = format!("points {} objectives {p} variables {n}\n", answer.count);
    for point in &list {
        let line = spaced(&point.costs) + ": " + &spaced(&point.choice);
        text.push_str(line.trim_end());
        text.push('\n');
    }
    text
}

/// The frontier list of a problem by the brute force, with room for 64 points.
pub fn frontier_of(bytes: &[u8]) -> Result<Vec<Listed>, Refusal> {
    frontier_by(solve_problem, bytes)
}

/// The list and the half sizes of a problem by the brute force, with room for 64 points.
pub fn cut_of(bytes: &[u8], sides: &[u8]) -> Result<Cut, Refusal> {
    cut_by(solve_cut, bytes, sides)
}

/// What the list program prints for a problem, by the brute force.
pub fn list_text(bytes: &[u8]) -> String {
    list_text_by(solve_problem, &mut Buffers::full(), bytes)
}
