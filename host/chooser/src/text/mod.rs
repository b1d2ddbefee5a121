//! The text form of a problem: a small language of lines for people, which `docs/FORMAT.md`
//! describes. It adds names to what the record bytes say, and loses nothing of it.

mod cursor;
mod fault;
mod lines;
mod names;
mod parse;
mod tables;
mod write;

pub use fault::{quoted, Fault};
pub use lines::behind;
pub use names::{is_name, Module, Names, LONGEST_NAME};
pub use parse::{parse, STATEMENTS};
pub use write::write;

use frontier::Problem;

/// A problem with the names of its costs, modules and variants.
#[derive(Clone, Debug, PartialEq, Eq)]
pub struct Named {
    pub problem: Problem,
    pub names: Names,
}

/// In place of a cost: the combination is forbidden.
const NEVER: &str = "never";
