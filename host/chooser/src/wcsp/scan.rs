//! A way through the words of a WCSP text that keeps the first of each kind of finding.

use super::due::Due;
use super::words::{Natural, Number, Word, Words};
use super::Finding;
use frontier::limits::{MAX_ARITY, MAX_BYTES, MAX_DOMAIN, MAX_TABLES, MAX_VARIABLES};
use frontier::Refusal;

/// What a text is refused for; none where it is accepted. Of several findings the one that the number is for:
/// the first that is not the format, or else the first of refused content.
pub fn find(text: &[u8]) -> Option<Finding> {
    let mut scan = Scan {
        words: Words::new(text),
        first: None,
        bytes: 0,
    };
    match scan.network() {
        Err(end) if end.refusal == Refusal::Text => Some(*end),
        Err(stop) => Some(scan.first.unwrap_or(*stop)),
        Ok(()) => scan.first,
    }
}

/// What ends a reading: what is not the format, or a negative number behind which nothing is read.
type End = Box<Finding>;

/// The words that are left, the first refused content, and how many bytes the records have so far.
struct Scan<'a> {
    words: Words<'a>,
    first: Option<Finding>,
    bytes: u64,
}

/// What is known of the variables.
type Sizes<'a> = Vec<Natural<'a>>;

impl<'a> Scan<'a> {
    /// The next word as a number.
    fn number(&mut self, due: Due) -> Result<(Word<'a>, Natural<'a>), End> {
        let word = self.words.take();
        match word.number() {
            Number::Natural(natural) => Ok((word, natural)),
            Number::None => Err(no_number(word, due)),
            Number::Negative => Err(negative(word, due)),
        }
    }

    /// Keeps refused content, if it is the first.
    fn refuse(&mut self, word: Word, message: String) {
        self.first
            .get_or_insert_with(|| *finding(Refusal::Dialect, word, message));
    }

    /// The next word as a number from `least` to `most`; others are refused content.
    fn within(&mut self, due: Due, least: u64, most: u64) -> Result<(Word<'a>, Natural<'a>), End> {
        let (word, number) = self.number(due)?;
        if !(least..=most).contains(&number.capped()) {
            let (shown, mend) = (word.quoted(), due.outside());
            self.refuse(
                word,
                format!("{due} is {shown}, and may be {least} to {most}{mend}"),
            );
        }
        Ok((word, number))
    }

    fn network(&mut self) -> Result<(), End> {
        let name = self.words.take();
        if name.bytes.is_empty() {
            return Err(fault(
                name,
                format!("the text is empty; {} comes first", Due::Name),
            ));
        }
        let (_, variables) = self.within(Due::Variables, 1, MAX_VARIABLES as u64)?;
        let largest = self.number(Due::Largest)?;
        let (_, functions) = self.within(Due::Functions, 0, MAX_TABLES as u64)?;
        self.within(Due::Bound, 1, u32::MAX.into())?;
        let sizes = self.sizes(variables, largest)?;
        self.bytes = 10 + 3 * sizes.len() as u64;
        for function in 0..functions.capped() {
            self.function(function, &sizes)?;
        }
        let behind = self.words.take();
        match behind.bytes.is_empty() {
            true => Ok(()),
            false => Err(fault(
                behind,
                "the last function has ended before this word; leave out what follows, or look at \
                 the number of functions and of tuples"
                    .into(),
            )),
        }
    }

    fn sizes(
        &mut self,
        variables: Natural,
        (stated_at, stated): (Word<'a>, Natural<'a>),
    ) -> Result<Sizes<'a>, End> {
        let mut sizes = Vec::new();
        for variable in 0..variables.capped() {
            let due = Due::Size {
                variable: variable as usize,
            };
            let (word, size) = self.within(due, 1, MAX_DOMAIN as u64)?;
            if size > stated {
                let message =
                    format!("{due} is above the largest one, which the first line states");
                return Err(fault(word, message));
            }
            sizes.push(size);
        }
        let largest = sizes.iter().max().map_or(0, |size| size.capped());
        let is_met = match sizes.is_empty() {
            true => stated.capped() == 0,
            false => sizes.contains(&stated),
        };
        match is_met {
            true => Ok(sizes),
            false => Err(fault(
                stated_at,
                format!("the largest domain size is {largest}, and another is stated here"),
            )),
        }
    }

    fn function(&mut self, function: u64, sizes: &Sizes<'a>) -> Result<(), End> {
        let (head, arity) = self.within(Due::Arity { function }, 0, MAX_ARITY as u64)?;
        let scope = self.scope(function, arity, sizes.len())?;
        self.within(Due::Default { function }, 0, u32::MAX.into())?;
        let (word, tuples) = self.number(Due::Tuples { function })?;
        if scope.is_empty() && tuples.capped() > 0 {
            let message =
                "a function of arity 0 has no tuples: its cost is the default; write 0 here";
            return Err(fault(word, message.into()));
        }
        self.add_bytes(head, &scope, sizes);
        let mut given = Given::default();
        for _ in 0..tuples.capped() {
            self.tuple(function, &scope, sizes, &mut given)?;
        }
        Ok(())
    }

    fn scope(
        &mut self,
        function: u64,
        arity: Natural,
        variables: usize,
    ) -> Result<Vec<usize>, End> {
        let (due, mut scope) = (Due::Scope { function }, Vec::new());
        for _ in 0..arity.capped() {
            let (word, variable) = self.number(due)?;
            let variable = variable.capped();
            if variable >= variables as u64 {
                let shown = word.quoted();
                let message = format!(
                    "there is no variable {shown}: there are {variables}, and they start at 0"
                );
                return Err(fault(word, message));
            }
            // Longer scopes are refused already.
            if scope.len() < MAX_ARITY && scope.contains(&(variable as usize)) {
                let message =
                    format!("variable {variable} stands twice in the scope; name it once");
                self.refuse(word, message);
            }
            scope.push(variable as usize);
        }
        Ok(scope)
    }

    /// Counts the bytes of a function's record, if nothing is refused yet.
    fn add_bytes(&mut self, head: Word, scope: &[usize], sizes: &Sizes) {
        if self.first.is_some() {
            return;
        }
        let entries: u64 = scope.iter().map(|&v| sizes[v].capped()).product();
        self.bytes += 4 + scope.len() as u64 + 4 * entries;
        if self.bytes > MAX_BYTES as u64 {
            let message = format!(
                "with this function the records have more than {MAX_BYTES} bytes; leave functions \
                 out, or add up those over the same variables"
            );
            self.refuse(head, message);
        }
    }

    fn tuple(
        &mut self,
        function: u64,
        scope: &[usize],
        sizes: &Sizes,
        given: &mut Given,
    ) -> Result<(), End> {
        let (mut first, mut index) = (None, 0);
        for &variable in scope {
            let (word, value) = self.number(Due::Value { function, variable })?;
            if value >= sizes[variable] {
                let (shown, size) = (word.quoted(), sizes[variable]);
                let message = format!(
                    "variable {variable} has no value {shown}: its domain size is {size}, and \
                     values start at 0"
                );
                return Err(fault(word, message));
            }
            first.get_or_insert(word);
            // Within the limits it is below 512; otherwise it is not asked for.
            index = sizes[variable]
                .capped()
                .wrapping_mul(index)
                .wrapping_add(value.capped());
        }
        let is_first = self.first.is_some() || given.add(index as usize);
        if let Some(word) = first.filter(|_| !is_first) {
            let message = "this tuple is given twice in its function; give each one cost";
            self.refuse(word, message.into());
        }
        self.within(Due::Cost { function }, 0, u32::MAX.into())?;
        Ok(())
    }
}

/// The tuples of a function that were given, by the index of their entry; at most 512 within the limits.
#[derive(Default)]
struct Given(Vec<bool>);

impl Given {
    /// Whether it was not given before.
    fn add(&mut self, index: usize) -> bool {
        self.0.resize(self.0.len().max(index + 1), false);
        !std::mem::replace(&mut self.0[index], true)
    }
}

/// Where a number is due, there is another word or none.
fn no_number(word: Word, due: Due) -> End {
    let wrong = match word.bytes.is_empty() {
        true => format!("the text ends where {due} is due"),
        false => format!("{} is not a number, and {due} is due here", word.quoted()),
    };
    fault(word, format!("{wrong}; look at the counts before it"))
}

/// A negative number is refused content where it stands for something, and else not the format.
fn negative(word: Word, due: Due) -> End {
    let wrong = format!("{due} is negative ({})", word.quoted());
    match due.negative() {
        Some(mend) => finding(Refusal::Dialect, word, format!("{wrong}; {mend}")),
        None => fault(word, format!("{wrong}; give one from 0 on")),
    }
}

fn finding(refusal: Refusal, word: Word, message: String) -> End {
    Box::new(Finding {
        refusal,
        place: word.place,
        message,
    })
}

fn fault(word: Word, message: String) -> End {
    finding(Refusal::Text, word, message)
}
