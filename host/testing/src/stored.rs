//! The stored problems with their expected texts. How many a folder has is asserted here, so that no
//! test passes for want of problems.

use std::fmt::Debug;
use std::str::FromStr;

use crate::night::{read_bytes, read_night, NightProblem};
use crate::owned::Listed;
use crate::places::data;
use crate::reading::read_problem;
use frontier::limits::MAX_POINTS;
use frontier::Problem;

/// The names of the folders.
pub const NIGHTLY: &str = "nightly";
pub const STRESS: &str = "stress";

/// The harder problems that took the plain call more than two seconds once. For seven of them no answer
/// is known.
const SLOW: [&str; 12] = [
    "place_m_2",
    "place_x_2",
    "place_x_4",
    "rand_x_2",
    "rand_x_5",
    "single_x_5",
    "tern_m_2",
    "tern_m_4",
    "tern_x_1",
    "tern_x_2",
    "tern_x_4",
    "tern_x_5",
];

/// A problem of the folders: its bytes, the same read, and what the list program prints for it.
pub struct Stored {
    pub name: String,
    pub bytes: Vec<u8>,
    pub problem: Problem,
    pub expected: String,
}

impl Stored {
    /// The points that the text lists, and how many there are; 65 stands for every number above 64.
    pub fn frontier(&self) -> (Vec<Listed>, usize) {
        if self.expected == "refused 15 at 0\n" {
            return (Vec::new(), MAX_POINTS + 1);
        }
        let mut lines = self.expected.lines();
        let first = lines.next();
        let list: Vec<Listed> = lines.map(parse_point).collect();
        let (p, n) = (self.problem.objectives(), self.problem.variables());
        let counted = format!("points {} objectives {p} variables {n}", list.len());
        assert_eq!(first, Some(&counted[..]), "{}", self.name);
        let size = list.len();
        (list, size)
    }
}

/// A point from its line: the costs, a colon, and the choice.
fn parse_point(line: &str) -> Listed {
    let (costs, choice) = line.split_once(" : ").expect("a colon");
    Listed {
        costs: parse_numbers(costs),
        choice: parse_numbers(choice),
    }
}

fn parse_numbers<T: FromStr<Err: Debug>>(text: &str) -> Vec<T> {
    let numbers = text.split(' ').map(str::parse);
    numbers.map(|number| number.expect("a number")).collect()
}

/// The problems of a folder that has so many, in the order of their names.
fn stored(folder: &str, count: usize) -> Vec<Stored> {
    let problems = read_night(&data(folder)).expect("a folder of the repository");
    assert_eq!(problems.len(), count, "{folder}");
    let read = |problem: NightProblem| {
        let bytes = read_bytes(&problem.path).expect("a file that was listed");
        let reading = read_problem(&bytes);
        let refused = |refusal| panic!("{}: {refusal:?}", problem.name);
        Stored {
            problem: reading.unwrap_or_else(refused).problem,
            expected: problem.expected.expect("an expected text"),
            name: problem.name,
            bytes,
        }
    };
    problems.into_iter().map(read).collect()
}

/// The night's problems.
pub fn nightly() -> Vec<Stored> {
    stored(NIGHTLY, 380)
}

/// The harder problems that are answered in about a second or less.
pub fn quick_stress() -> Vec<Stored> {
    let mut problems = stored(STRESS, 120);
    problems.retain(|stored| !SLOW.contains(&&stored.name[..]));
    assert_eq!(problems.len(), 120 - SLOW.len());
    problems
}
