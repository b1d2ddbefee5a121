//! The line that tells on a terminal how far a run is.

use std::io::{self, IsTerminal, Write};

/// Shows a line on standard error in the place of the last one, if that is a terminal; an empty
/// line takes it back.
pub fn show_progress(line: &str) {
    let mut output = io::stderr();
    if output.is_terminal() {
        // Nothing is lost where it cannot be shown.
        let _ = write!(output, "\r\x1b[K{line}").and_then(|()| output.flush());
    }
}
