//! The library part of the command `chooser`: its subcommands, the text form of a problem, places in WCSP
//! text, pictures and batches.

pub mod batch_calls;
pub mod batch_csv;
pub mod batch_worker;
pub mod cache_file;
pub mod clock;
pub mod columns;
pub mod command;
pub mod digest;
pub mod folder;
pub mod hex;
pub mod json;
pub mod junk;
pub mod nearest;
pub mod plot;
pub mod progress;
pub mod records;
pub mod text;
pub mod wcsp;
pub mod worker;
