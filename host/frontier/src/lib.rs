//! The proved variant chooser from Rust.
//!
//! A problem has modules ([variables](limits::MAX_VARIABLES)) with several variants each (values),
//! up to four costs (objectives) with a ceiling each, and cost tables over at most three modules. A choice
//! of variants is allowed if no cost is above its ceiling and no table [forbids](FORBIDDEN) it. The chooser
//! lists the efficient frontier: every cost vector of an allowed choice that no other one beats, in rising
//! order, each with the earliest allowed choice that has it. The same problem always gives the same list. That
//! is proved, for every input, of the static library that this package links.
//!
//! ```
//! use frontier::{Chooser, Problem, Table};
//!
//! // Two modules with two variants each; at most 50 of flash and 45 of cycles.
//! let problem = Problem {
//!     ceilings: vec![50, 45],
//!     domains: vec![2, 2],
//!     tables: vec![
//!         Table::new(0, &[0], &[30, 50]),         // flash of the first module's variants
//!         Table::new(1, &[0], &[40, 10]),         // and their cycles
//!         Table::new(1, &[0, 1], &[5, 9, 20, 5]), // cycles of each pair of variants
//!     ],
//! };
//! let mut chooser = Chooser::new();
//! let frontier = chooser.solve(&problem.encode())?;
//! let points: Vec<_> = frontier.points().map(|point| (point.costs, point.choice)).collect();
//! assert_eq!(points, [(&[30, 45][..], &[0, 0][..]), (&[50, 15], &[1, 1])]);
//! # Ok::<(), frontier::Refusal>(())
//! ```
//!
//! [`Chooser`] owns one set of buffers and is used again for problem after problem. [`to_text`] writes
//! a problem with one objective as text for other solvers, and [`from_text`] reads such a text.
//! [`canonical`] gives a form and a key that are the same for a problem in every layout. A [`Store`] keeps
//! answers for problems that come again. Those who bring their own buffers, as C programs do, find the calls
//! in [`lent`].

#![warn(missing_docs)]

mod batch;
mod buffers;
mod canonical;
mod chooser;
mod ffi;
pub mod lent;
pub mod limits;
mod list;
pub mod measure;
mod problem;
pub mod refusal;
mod store;
mod version;
mod wcsp;

pub use canonical::{canonical, Canonical};
pub use chooser::{Bound, Chooser, Cut};
pub use list::{Frontier, Point, Points};
pub use problem::{Problem, Table, FORBIDDEN};
pub use refusal::Refusal;
pub use store::{Cached, Store};
pub use version::version;
pub use wcsp::{from_text, to_text};
