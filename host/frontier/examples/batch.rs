//! Tells how many points the frontiers of problem files have, with up to 16 problems in a call, by the proved
//! library's Rust wrapper.
//!
//!     cargo run --release --offline --example batch ../examples/*.bin

use std::env;
use std::error::Error;
use std::ffi::OsString;
use std::fs;
use std::path::Path;

use frontier::limits::MAX_BATCH;
use frontier::Chooser;

fn main() -> Result<(), Box<dyn Error>> {
    let files: Vec<OsString> = env::args_os().skip(1).collect();
    let mut chooser = Chooser::new();
    for batch in files.chunks(MAX_BATCH) {
        let problems = batch.iter().map(fs::read).collect::<Result<Vec<_>, _>>()?;
        let found = chooser.solve_batch(&problems)?;
        for (file, frontier) in batch.iter().zip(found) {
            let file = Path::new(file).display();
            match frontier {
                Ok(frontier) => println!("{file}: {} points", frontier.len()),
                Err(refusal) => println!("{file}: {refusal}"),
            }
        }
    }
    Ok(())
}
