//! Where a WCSP text is refused, for people. The library decides whether it is, and tells a number alone; this
//! goes through the words by the same rules (reference, section 13) and finds the one that the number is for.

mod due;
mod scan;
mod words;

use crate::text::{behind, Fault, STATEMENTS};
use frontier::Refusal;
use words::{Word, Words};

pub use scan::find;

/// The mark of UTF-8, which our own text form may have first.
const MARK: &[u8] = "\u{feff}".as_bytes();

/// Whether a text is WCSP text by its first words: a name that our own text form does not start with, and
/// then numbers, as far as there are words.
pub fn is_wcsp(text: &[u8]) -> bool {
    let mut words = Words::new(text.strip_prefix(MARK).unwrap_or(text));
    let name = words.take().bytes;
    let starts_ours = STATEMENTS.iter().any(|word| word.as_bytes() == name);
    if starts_ours || name.starts_with(b"#") {
        return false;
    }
    let numbers: [Word; 4] = std::array::from_fn(|_| words.take());
    let behind = |word: &Word| word.bytes.is_empty() || word.is_number();
    numbers[0].is_number() && numbers[1..].iter().all(behind)
}

/// What is wrong with a text: the refusal, the place of the word, and what to do.
#[derive(Clone, Debug, PartialEq, Eq)]
pub struct Finding {
    pub refusal: Refusal,
    /// The first byte of the word, or the length of the text where a word is missing.
    pub place: usize,
    pub message: String,
}

impl Finding {
    /// The finding with line and column, of which the text is the one that it was found in.
    pub fn fault(&self, text: &[u8]) -> Fault {
        let (line, column) = behind(&String::from_utf8_lossy(&text[..self.place]));
        let message = self.message.clone();
        Fault {
            line,
            column,
            message,
        }
    }
}
