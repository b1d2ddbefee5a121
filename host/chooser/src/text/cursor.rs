//! A place in the words of a line: takes them one by one, and says what is due where one is wrong.

use super::fault::{quoted, Fault};
use super::lines::{Line, Word};
use super::names::{is_name, LONGEST_NAME};
use super::NEVER;
use frontier::FORBIDDEN;

/// A line and how many of its words are taken.
pub struct Cursor<'a> {
    line: &'a Line<'a>,
    taken: usize,
}

impl<'a> Cursor<'a> {
    /// Before the first word of a line.
    pub fn new(line: &'a Line<'a>) -> Cursor<'a> {
        Cursor { line, taken: 0 }
    }

    /// The fault with this message at a word.
    pub fn fault_at(&self, word: Word, message: impl Into<String>) -> Fault {
        Fault {
            line: self.line.number,
            column: word.column,
            message: message.into(),
        }
    }

    /// The fault with this message at the next word, or behind the last one.
    pub fn fault(&self, message: impl Into<String>) -> Fault {
        let end = Word {
            text: "",
            column: self.line.end,
        };
        self.fault_at(self.next().unwrap_or(end), message)
    }

    /// The next word.
    pub fn next(&self) -> Option<Word<'a>> {
        self.line.words.get(self.taken).copied()
    }

    /// Takes the next word, whatever it is.
    pub fn take(&mut self) -> Option<Word<'a>> {
        let next = self.next();
        self.taken += usize::from(next.is_some());
        next
    }

    /// Takes the next word if it is this one.
    pub fn take_if(&mut self, text: &str) -> bool {
        let is_next = self.next().is_some_and(|word| word.text == text);
        self.taken += usize::from(is_next);
        is_next
    }

    /// What stands at the place, for a message.
    fn found(&self) -> String {
        self.next().map_or("the line ends".into(), |word| {
            format!("{} stands here", quoted(word.text))
        })
    }

    /// Takes a mark or word that must follow; `why` says what it is for.
    pub fn expect(&mut self, text: &str, why: &str) -> Result<(), Fault> {
        if self.take_if(text) {
            return Ok(());
        }
        Err(self.fault(format!("'{text}' is due {why}, but {}", self.found())))
    }

    /// Takes a name; `what` says of what.
    pub fn name(&mut self, what: &str) -> Result<Word<'a>, Fault> {
        match self.next() {
            Some(word) if is_name(word.text) => {
                self.taken += 1;
                Ok(word)
            }
            Some(word) if word.text.chars().count() > LONGEST_NAME => {
                let message = format!("a name has at most {LONGEST_NAME} characters; shorten it");
                Err(self.fault(message))
            }
            _ => Err(self.fault(format!(
                "the name of {what} is due, but {}; a name has a letter or '_' first, then \
                 letters, digits and any of _ - . +",
                self.found()
            ))),
        }
    }

    /// Takes a whole number of 32 bits; `what` says of what.
    pub fn number(&mut self, what: &str) -> Result<u32, Fault> {
        let due = || {
            let found = self.found();
            self.fault(format!(
                "{what} is due (a whole number from 0 to {}), but {found}",
                u32::MAX
            ))
        };
        let word = self.next().ok_or_else(due)?;
        if !word.text.bytes().all(|byte| byte.is_ascii_digit()) {
            return Err(due());
        }
        let number = word.text.parse().map_err(|_| {
            let message = format!(
                "{} is too large; {what} is at most {}",
                quoted(word.text),
                u32::MAX
            );
            self.fault(message)
        })?;
        self.taken += 1;
        Ok(number)
    }

    /// Takes an entry of a table: a number, or the word for a forbidden combination.
    pub fn cost(&mut self, what: &str) -> Result<u32, Fault> {
        match self.take_if(NEVER) {
            true => Ok(FORBIDDEN),
            false => self.number(&format!("{what}, or '{NEVER}',")),
        }
    }

    /// Nothing may follow on the line; `after` says what is complete.
    pub fn end(&self, after: &str) -> Result<(), Fault> {
        match self.next() {
            None => Ok(()),
            Some(word) => {
                let extra = quoted(word.text);
                Err(self.fault(format!("{extra} is one word too many: {after}")))
            }
        }
    }
}
