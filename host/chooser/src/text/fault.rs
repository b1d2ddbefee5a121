//! What is wrong with a text, and where.

use std::fmt;

/// A fault of a text. Lines and columns count from 1, columns in characters.
#[derive(Clone, Debug, PartialEq, Eq)]
pub struct Fault {
    pub line: usize,
    pub column: usize,
    pub message: String,
}

impl fmt::Display for Fault {
    fn fmt(&self, f: &mut fmt::Formatter) -> fmt::Result {
        write!(
            f,
            "line {}, column {}: {}",
            self.line, self.column, self.message
        )
    }
}

/// A word of a text between quotes, short and without characters that a terminal obeys.
pub fn quoted(word: &str) -> String {
    /// Longer words are told by their beginning.
    const SHOWN: usize = 40;
    let shown: String = word
        .chars()
        .take(SHOWN)
        .flat_map(char::escape_debug)
        .collect();
    let more = if word.chars().count() > SHOWN {
        "..."
    } else {
        ""
    };
    format!("'{shown}{more}'")
}
