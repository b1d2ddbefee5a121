//! The words of a WCSP text, and numbers of any length among them.

/// A whole number from 0 on, by its decimal digits without leading zeros; 0 has none.
#[derive(Clone, Debug, PartialEq, Eq)]
pub struct Natural(Vec<u8>);

impl Natural {
    pub fn zero() -> Natural {
        Natural(Vec::new())
    }

    /// The number, if it has so few digits that 64 bits are enough whatever they are.
    pub fn small(&self) -> Option<u64> {
        let digits = self.0.iter().map(|digit| u64::from(digit - b'0'));
        (self.0.len() <= 19).then(|| digits.fold(0, |number, digit| 10 * number + digit))
    }

    /// How often to read an item that it counts. Where 64 bits are too few for it, words end before.
    pub fn times(&self) -> u64 {
        self.small().unwrap_or(u64::MAX)
    }
}

/// The shorter is less; of two as long, the first digit that differs decides.
impl Ord for Natural {
    fn cmp(&self, other: &Natural) -> std::cmp::Ordering {
        let lengths = self.0.len().cmp(&other.0.len());
        lengths.then_with(|| self.0.cmp(&other.0))
    }
}

impl PartialOrd for Natural {
    fn partial_cmp(&self, other: &Natural) -> Option<std::cmp::Ordering> {
        Some(self.cmp(other))
    }
}

/// What a word that stands for a number says.
#[derive(Clone, Debug, PartialEq, Eq)]
pub enum Term {
    Natural(Natural),
    /// Below 0.
    Negative,
}

impl Term {
    /// A sign or none, and one digit or more; none for any other word. A 0 with a minus is 0.
    pub fn of(word: &[u8]) -> Option<Term> {
        let (is_minus, digits) = match word {
            [b'-', digits @ ..] => (true, digits),
            [b'+', digits @ ..] => (false, digits),
            digits => (false, digits),
        };
        if digits.is_empty() || !digits.iter().all(u8::is_ascii_digit) {
            return None;
        }
        let zeros = digits.iter().take_while(|&&digit| digit == b'0').count();
        let significant = digits[zeros..].to_vec();
        match is_minus && !significant.is_empty() {
            true => Some(Term::Negative),
            false => Some(Term::Natural(Natural(significant))),
        }
    }
}

/// The words of a text: what stands between white space (bytes 9 to 13, and 32).
pub fn words(text: &[u8]) -> impl Iterator<Item = &[u8]> {
    let parts = text.split(|byte| matches!(byte, 9..=13 | 32));
    parts.filter(|part| !part.is_empty())
}
