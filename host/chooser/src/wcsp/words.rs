//! The words of a WCSP text, with their places, and the numbers that they are.

use std::cmp::Ordering;
use std::fmt;

use crate::text::quoted;

/// A word and the place of its first byte; an empty one at the end where there is none.
#[derive(Clone, Copy, Debug)]
pub struct Word<'a> {
    pub place: usize,
    pub bytes: &'a [u8],
}

/// What a word is as a number.
#[derive(Clone, Copy, Debug)]
pub enum Number<'a> {
    Natural(Natural<'a>),
    Negative,
    None,
}

/// A number from 0 on, by its digits without zeros in front.
#[derive(Clone, Copy, Debug, PartialEq, Eq)]
pub struct Natural<'a>(&'a [u8]);

impl Natural<'_> {
    /// The number, or the greatest of 64 bits where it has more than 19 digits.
    pub fn capped(self) -> u64 {
        let digits = self.0.iter().map(|digit| u64::from(digit - b'0'));
        match self.0.len() <= 19 {
            true => digits.fold(0, |number, digit| 10 * number + digit),
            false => u64::MAX,
        }
    }
}

impl fmt::Display for Natural<'_> {
    fn fmt(&self, f: &mut fmt::Formatter) -> fmt::Result {
        match self.0 {
            [] => write!(f, "0"),
            digits => write!(f, "{}", digits.escape_ascii()),
        }
    }
}

/// The one with fewer digits is less; of two as long, the first digit that differs decides.
impl Ord for Natural<'_> {
    fn cmp(&self, other: &Self) -> Ordering {
        (self.0.len(), self.0).cmp(&(other.0.len(), other.0))
    }
}

impl PartialOrd for Natural<'_> {
    fn partial_cmp(&self, other: &Self) -> Option<Ordering> {
        Some(self.cmp(other))
    }
}

impl<'a> Word<'a> {
    /// A sign or none, and one digit or more; a 0 with a minus is 0.
    pub fn number(&self) -> Number<'a> {
        let (sign, digits) = match self.bytes {
            [sign @ (b'+' | b'-'), digits @ ..] => (*sign, digits),
            digits => (b'+', digits),
        };
        if digits.is_empty() || !digits.iter().all(u8::is_ascii_digit) {
            return Number::None;
        }
        let zeros = digits.iter().take_while(|&&digit| digit == b'0').count();
        match &digits[zeros..] {
            [_, ..] if sign == b'-' => Number::Negative,
            rest => Number::Natural(Natural(rest)),
        }
    }

    pub fn is_number(&self) -> bool {
        !matches!(self.number(), Number::None)
    }

    /// The word between quotes, as a message has it.
    pub fn quoted(&self) -> String {
        quoted(&String::from_utf8_lossy(self.bytes))
    }
}

/// The words of a text that are not read yet.
#[derive(Clone)]
pub struct Words<'a> {
    text: &'a [u8],
    place: usize,
}

impl<'a> Words<'a> {
    pub fn new(text: &'a [u8]) -> Words<'a> {
        Words { text, place: 0 }
    }

    /// The next word; an empty one at the end.
    pub fn take(&mut self) -> Word<'a> {
        let rest = &self.text[self.place..];
        let space = rest.iter().take_while(|&&byte| is_space(byte)).count();
        let (place, rest) = (self.place + space, &rest[space..]);
        let length = rest.iter().take_while(|&&byte| !is_space(byte)).count();
        self.place = place + length;
        Word {
            place,
            bytes: &rest[..length],
        }
    }
}

fn is_space(byte: u8) -> bool {
    matches!(byte, 9..=13 | 32)
}
