//! What the chooser is tried and measured with: an independent brute force, written from the rules'
//! prose, generators of problems, guarded memory, the search in plain Rust, and what tests share.
//!
//! The brute force finds every answer by going through all complete choices, so nothing in it is
//! fast and nothing is clever. Feed it only problems whose choices can be counted through.

pub mod batch;
pub mod bound;
pub mod brute;
pub mod c_compiler;
pub mod cache;
pub mod canonical;
pub mod ceilings;
pub mod checker;
pub mod chooser_run;
pub mod cut;
pub mod examples;
pub mod fence;
pub mod guard;
pub mod guarded;
pub mod layouts;
pub mod mixed;
pub mod night;
pub mod owned;
pub mod places;
pub mod plain;
pub mod point_records;
pub mod random;
pub mod read_texts;
pub mod reading;
pub mod said;
pub mod scripts;
pub mod speed;
pub mod stored;
pub mod texts;
pub mod turned;
pub mod wcsp;
pub mod xml;
