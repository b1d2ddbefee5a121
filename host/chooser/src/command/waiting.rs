//! A line on the terminal while a call takes long, since it cannot be interrupted or asked how far
//! it is.

use std::io::{self, IsTerminal};
use std::sync::mpsc::{channel, Receiver, RecvTimeoutError};
use std::thread;
use std::time::{Duration, Instant};

use super::print_error;

/// The line is renewed so often.
const STEP: Duration = Duration::from_secs(1);

/// Does the work; meanwhile the seconds are told where standard error is a terminal.
pub fn while_waiting<T>(work: impl FnOnce() -> T) -> T {
    if !io::stderr().is_terminal() {
        return work();
    }
    let (working, end) = channel::<()>();
    thread::scope(|scope| {
        scope.spawn(move || tell_seconds(&end));
        let done = work();
        drop(working);
        done
    })
}

/// Tells the seconds until the other end of the channel is gone, and then clears the line.
fn tell_seconds(end: &Receiver<()>) {
    let start = Instant::now();
    let mut told = false;
    while end.recv_timeout(STEP) == Err(RecvTimeoutError::Timeout) {
        let seconds = start.elapsed().as_secs();
        print_error(&format!("\rsearching, {seconds} s so far; Ctrl-C gives up"));
        told = true;
    }
    if told {
        print_error("\r\x1b[K");
    }
}
