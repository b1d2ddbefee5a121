//! Lists the frontier of a problem file by the proved library's Rust wrapper.
//!
//!     cargo run --release --offline --example solve ../examples/firmware.bin

use std::env;
use std::fs;
use std::path::Path;
use std::process::ExitCode;

use frontier::Chooser;

/// Numbers with a space between neighbours.
fn words<T: ToString>(numbers: &[T]) -> String {
    let words: Vec<String> = numbers.iter().map(T::to_string).collect();
    words.join(" ")
}

fn main() -> ExitCode {
    let Some(path) = env::args_os().nth(1) else {
        eprintln!("usage: solve FILE");
        return ExitCode::from(2);
    };
    let problem = match fs::read(&path) {
        Ok(bytes) => bytes,
        Err(error) => {
            let path = Path::new(&path).display();
            eprintln!("solve: {path} cannot be read: {error}");
            return ExitCode::from(2);
        }
    };
    match Chooser::new().solve(&problem) {
        Ok(frontier) => {
            for point in frontier {
                println!("{} : {}", words(point.costs), words(point.choice));
            }
            ExitCode::SUCCESS
        }
        Err(refusal) => {
            eprintln!("solve: {refusal}");
            ExitCode::FAILURE
        }
    }
}
