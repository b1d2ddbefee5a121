//! A text as lines of words: comments and empty lines are gone, places are kept.

use std::str;

use super::fault::Fault;

/// The marks, each of which is a word of its own wherever it stands; the longer before its beginning.
const MARKS: [&str; 4] = [",", ":", "<=", "<"];

/// Starts a comment, which ends with its line.
const COMMENT: char = '#';

/// A name, a number or a mark, and the column of its first character.
#[derive(Clone, Copy, Debug, PartialEq, Eq)]
pub struct Word<'a> {
    pub text: &'a str,
    pub column: usize,
}

/// A line with at least one word.
#[derive(Clone, Debug, PartialEq, Eq)]
pub struct Line<'a> {
    pub number: usize,
    /// Whether a space or tab stands first: such a line goes on with the table above it.
    pub indented: bool,
    pub words: Vec<Word<'a>>,
    /// The column behind the last word.
    pub end: usize,
}

/// The bytes as text, or the place of the first that are none.
pub fn decode(bytes: &[u8]) -> Result<&str, Fault> {
    let text = str::from_utf8(bytes).map_err(|error| {
        let (good, bad) = bytes.split_at(error.valid_up_to());
        let good = str::from_utf8(good).unwrap_or_default();
        let (line, column) = behind(good);
        let byte = bad.first().copied().unwrap_or_default();
        let message = format!(
            "the byte 0x{byte:02x} is no text (UTF-8) here; a text problem is text alone, and a \
             binary one starts with the letters HD"
        );
        Fault {
            line,
            column,
            message,
        }
    })?;
    // Some editors put this mark of UTF-8 first; it says nothing.
    Ok(text.strip_prefix('\u{feff}').unwrap_or(text))
}

/// The line and column of what follows a text.
pub fn behind(text: &str) -> (usize, usize) {
    let line = 1 + text.matches('\n').count();
    let last = text.rsplit('\n').next().unwrap_or_default();
    (line, 1 + last.chars().count())
}

/// The lines of a text that have words.
pub fn lines_of(text: &str) -> Vec<Line<'_>> {
    let numbered = (1..).zip(text.lines());
    let lines = numbered.map(|(number, line)| line_of(number, line));
    lines.filter(|line| !line.words.is_empty()).collect()
}

fn line_of(number: usize, text: &str) -> Line<'_> {
    let said = text.split(COMMENT).next().unwrap_or_default();
    let words = words_of(said);
    let end = words
        .last()
        .map_or(1, |word| word.column + word.text.chars().count());
    Line {
        number,
        indented: said.starts_with(char::is_whitespace),
        words,
        end,
    }
}

/// The words of a line: marks, and whatever stands between marks and spaces.
fn words_of(line: &str) -> Vec<Word<'_>> {
    let mut words = Vec::new();
    let mut open: Option<(usize, usize)> = None; // where a word begins: its byte and its column
    let mut letters = (1..).zip(line.char_indices());
    while let Some((column, (place, letter))) = letters.next() {
        let mark = MARKS.iter().find(|mark| line[place..].starts_with(**mark));
        if mark.is_some() || letter.is_whitespace() {
            words.extend(open.take().map(|(start, column)| Word {
                text: &line[start..place],
                column,
            }));
        } else if open.is_none() {
            open = Some((place, column));
        }
        if let Some(text) = mark {
            words.push(Word { text, column });
            letters.by_ref().take(text.len() - 1).for_each(drop);
        }
    }
    words.extend(open.map(|(start, column)| Word {
        text: &line[start..],
        column,
    }));
    words
}
