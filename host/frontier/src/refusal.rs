//! Refusals: why a problem, or a question about it, has no answer. The constants are the numbers of
//! the C interface, which the calls with lent buffers give; [`Refusal`] is the same as a type.

use std::error::Error;
use std::fmt;

use crate::limits::{LEAST_WORK, MAX_ARITY, MAX_BATCH, MAX_BYTES, MAX_DOMAIN, MAX_OBJECTIVES};
use crate::limits::{MAX_POINTS, MAX_TABLES, MAX_VARIABLES, SLOT_BYTES};

/// [`Refusal::Oversize`].
pub const OVERSIZE: u8 = 1;
/// [`Refusal::CutShort`].
pub const CUT_SHORT: u8 = 2;
/// [`Refusal::StrayMark`].
pub const STRAY_MARK: u8 = 3;
/// [`Refusal::Variables`].
pub const VARIABLES: u8 = 4;
/// [`Refusal::Objectives`].
pub const OBJECTIVES: u8 = 5;
/// [`Refusal::Tables`].
pub const TABLES: u8 = 6;
/// [`Refusal::Domain`].
pub const DOMAIN: u8 = 7;
/// [`Refusal::Owner`].
pub const OWNER: u8 = 8;
/// [`Refusal::Arity`].
pub const ARITY: u8 = 9;
/// [`Refusal::Scope`].
pub const SCOPE: u8 = 10;
/// [`Refusal::Leftover`].
pub const LEFTOVER: u8 = 11;
/// [`Refusal::Work`].
pub const WORK: u8 = 12;
/// [`Refusal::Sides`].
pub const SIDES: u8 = 13;
/// [`Refusal::Linked`].
pub const LINKED: u8 = 14;
/// [`Refusal::Full`].
pub const FULL: u8 = 15;
/// [`Refusal::Prefix`].
pub const PREFIX: u8 = 16;
/// [`Refusal::Text`].
pub const TEXT: u8 = 17;
/// [`Refusal::Dialect`].
pub const DIALECT: u8 = 18;
/// [`Refusal::Output`].
pub const OUTPUT: u8 = 19;
/// [`Refusal::Store`].
pub const STORE: u8 = 20;
/// [`Refusal::Batch`].
pub const BATCH: u8 = 21;

/// Why there is no answer. Where a record of the problem is at fault, its place is beside it: the
/// record's first byte, counted from 0.
///
/// ```
/// use frontier::{Chooser, Refusal};
///
/// let refusal = Chooser::new().solve(b"HD").unwrap_err();
/// assert_eq!(refusal, Refusal::CutShort(0));
/// assert_eq!((refusal.number(), refusal.word(), refusal.place()), (2, "cut short", 0));
/// assert_eq!(
///     refusal.to_string(),
///     "refused with number 2 (cut short) at byte 0: the bytes end inside the record that is due"
/// );
/// ```
#[derive(Clone, Copy, Debug, PartialEq, Eq, Hash)]
#[non_exhaustive]
pub enum Refusal {
    /// Number 1: the problem has more than 60,000 bytes.
    Oversize,
    /// Number 2: the bytes end inside the record that is due.
    CutShort(u32),
    /// Number 3: the two bytes due are another mark.
    StrayMark(u32),
    /// Number 4: n, the number of variables, is outside its limits.
    Variables(u32),
    /// Number 5: p, the number of objectives, is outside its limits.
    Objectives(u32),
    /// Number 6: r, the number of cost records, is above its limit.
    Tables(u32),
    /// Number 7: d, the size of a domain, is outside its limits.
    Domain(u32),
    /// Number 8: the objective of a cost record is p or more.
    Owner(u32),
    /// Number 9: the arity of a cost record is above its limit.
    Arity(u32),
    /// Number 10: a scope variable is n or more, or is named twice in the scope.
    Scope(u32),
    /// Number 11: bytes follow the last record; the place is the first of them.
    Leftover(u32),
    /// Number 12: the work buffer is too short.
    Work,
    /// Number 13: the side list is not n long, or has a byte other than 0 and 1.
    Sides,
    /// Number 14: a cost record's scope has both sides.
    Linked(u32),
    /// Number 15: more points than room, or a half's frontier above 64 points.
    Full,
    /// Number 16: the prefix is longer than n, or has a value not in its domain.
    Prefix,
    /// Number 17: a text is not in the WCSP format, states a false largest domain size, or has a variable
    /// or a value that is not declared.
    Text,
    /// Number 18: the other form cannot have it. A problem has p above 1, or the ceiling 4,294,967,295; or a text
    /// has what a problem may not have, a negative number, an upper bound of 0, or something twice.
    Dialect,
    /// Number 19: the buffer for the text, the problem or the canonical form is shorter than that.
    Output,
    /// Number 20: the store has not one slot.
    Store,
    /// Number 21: frames do not make up the batch, they are more than 16, or a buffer lacks an area of some
    /// problem, or a part of it.
    Batch,
}

/// What there is to say of a refusal: its number and word, and how to make it with a place.
struct Row {
    number: u8,
    word: &'static str,
    make: fn(u32) -> Refusal,
}

/// A row for each number, from 1 on.
const ROWS: [Row; 21] = [
    row(OVERSIZE, "oversize", |_| Refusal::Oversize),
    row(CUT_SHORT, "cut short", Refusal::CutShort),
    row(STRAY_MARK, "stray mark", Refusal::StrayMark),
    row(VARIABLES, "variables", Refusal::Variables),
    row(OBJECTIVES, "objectives", Refusal::Objectives),
    row(TABLES, "tables", Refusal::Tables),
    row(DOMAIN, "domain", Refusal::Domain),
    row(OWNER, "owner", Refusal::Owner),
    row(ARITY, "arity", Refusal::Arity),
    row(SCOPE, "scope", Refusal::Scope),
    row(LEFTOVER, "leftover", Refusal::Leftover),
    row(WORK, "work", |_| Refusal::Work),
    row(SIDES, "sides", |_| Refusal::Sides),
    row(LINKED, "linked", Refusal::Linked),
    row(FULL, "full", |_| Refusal::Full),
    row(PREFIX, "prefix", |_| Refusal::Prefix),
    row(TEXT, "text", |_| Refusal::Text),
    row(DIALECT, "dialect", |_| Refusal::Dialect),
    row(OUTPUT, "output", |_| Refusal::Output),
    row(STORE, "store", |_| Refusal::Store),
    row(BATCH, "batch", |_| Refusal::Batch),
];

const fn row(number: u8, word: &'static str, make: fn(u32) -> Refusal) -> Row {
    Row { number, word, make }
}

fn row_of(number: u8) -> Option<&'static Row> {
    ROWS.iter().find(|row| row.number == number)
}

/// The word for a number of refusal, or "unknown".
pub fn word_of(number: u8) -> &'static str {
    row_of(number).map_or("unknown", |row| row.word)
}

/// What a call that gives this number and place has found, if it is not 0.
pub(crate) fn check(number: u8, place: u32) -> Result<(), Refusal> {
    if number == 0 {
        return Ok(());
    }
    // The library is proved to give no other number and place; another version of it might.
    let known = Refusal::new(number, place);
    Err(known.unwrap_or_else(|| {
        panic!(
            "a call refuses with number {number} at {place}, which this package does not know; \
             link the library of version {}",
            env!("CARGO_PKG_VERSION")
        )
    }))
}

impl Refusal {
    /// The refusal with this number and place; none if there is no such number, or if its place is
    /// always 0 and this is another.
    pub fn new(number: u8, place: u32) -> Option<Refusal> {
        let made = row_of(number).map(|row| (row.make)(place));
        made.filter(|refusal| refusal.place() == place)
    }

    /// The number that the C interface gives it, from 1 on.
    pub fn number(self) -> u8 {
        match self {
            Refusal::Oversize => OVERSIZE,
            Refusal::CutShort(_) => CUT_SHORT,
            Refusal::StrayMark(_) => STRAY_MARK,
            Refusal::Variables(_) => VARIABLES,
            Refusal::Objectives(_) => OBJECTIVES,
            Refusal::Tables(_) => TABLES,
            Refusal::Domain(_) => DOMAIN,
            Refusal::Owner(_) => OWNER,
            Refusal::Arity(_) => ARITY,
            Refusal::Scope(_) => SCOPE,
            Refusal::Leftover(_) => LEFTOVER,
            Refusal::Work => WORK,
            Refusal::Sides => SIDES,
            Refusal::Linked(_) => LINKED,
            Refusal::Full => FULL,
            Refusal::Prefix => PREFIX,
            Refusal::Text => TEXT,
            Refusal::Dialect => DIALECT,
            Refusal::Output => OUTPUT,
            Refusal::Store => STORE,
            Refusal::Batch => BATCH,
        }
    }

    /// Its word.
    pub fn word(self) -> &'static str {
        word_of(self.number())
    }

    /// The byte of the problem at which it is told, if it is at one.
    pub fn byte(self) -> Option<u32> {
        match self {
            Refusal::CutShort(place)
            | Refusal::StrayMark(place)
            | Refusal::Variables(place)
            | Refusal::Objectives(place)
            | Refusal::Tables(place)
            | Refusal::Domain(place)
            | Refusal::Owner(place)
            | Refusal::Arity(place)
            | Refusal::Scope(place)
            | Refusal::Leftover(place)
            | Refusal::Linked(place) => Some(place),
            Refusal::Oversize
            | Refusal::Work
            | Refusal::Sides
            | Refusal::Full
            | Refusal::Prefix
            | Refusal::Text
            | Refusal::Dialect
            | Refusal::Output
            | Refusal::Store
            | Refusal::Batch => None,
        }
    }

    /// The place that the C interface gives it: the byte, or 0 where it is told at none.
    pub fn place(self) -> u32 {
        self.byte().unwrap_or(0)
    }

    /// What is wrong, with the limits as numbers.
    fn wrong(self) -> String {
        match self {
            Refusal::Oversize => format!("the problem has more than {MAX_BYTES} bytes"),
            Refusal::CutShort(_) => "the bytes end inside the record that is due".into(),
            Refusal::StrayMark(_) => "another mark stands where a record is due".into(),
            Refusal::Variables(_) => within("the number of variables", MAX_VARIABLES),
            Refusal::Objectives(_) => within("the number of objectives", MAX_OBJECTIVES),
            Refusal::Tables(_) => format!("there are more than {MAX_TABLES} cost records"),
            Refusal::Domain(_) => within("the size of the domain", MAX_DOMAIN),
            Refusal::Owner(_) => "the cost record is for an objective that there is not".into(),
            Refusal::Arity(_) => format!("the cost record is over more than {MAX_ARITY} variables"),
            Refusal::Scope(_) => {
                "the scope has a variable that there is not, or names one twice".into()
            }
            Refusal::Leftover(_) => "bytes follow the last record".into(),
            Refusal::Work => format!("the work buffer has fewer than {LEAST_WORK} numbers"),
            Refusal::Sides => "the side list has no 0 or 1 for each variable".into(),
            Refusal::Linked(_) => "the cost record is over variables of both sides".into(),
            Refusal::Full => format!(
                "the frontier has more points than there is room for, or a half's more than \
                 {MAX_POINTS}"
            ),
            Refusal::Prefix => {
                "the prefix has more values than there are variables, or one outside its domain"
                    .into()
            }
            Refusal::Text => {
                "the text is not in the WCSP format, states a false largest domain size, or has a \
                 variable or a value that is not declared"
                    .into()
            }
            Refusal::Dialect => {
                "WCSP text has one objective, and the problem more; or its ceiling is the \
                 greatest, which has no upper bound above it; or a problem cannot have what the \
                 text says: it is outside the limits, negative, too large or given twice, or the \
                 upper bound is 0"
                    .into()
            }
            Refusal::Output => "the buffer is shorter than what is to be written".into(),
            Refusal::Store => format!("the store has fewer than {SLOT_BYTES} bytes"),
            Refusal::Batch => format!(
                "the batch is not made of whole frames, has more than {MAX_BATCH} problems, or a \
                 buffer lacks an area of one"
            ),
        }
    }
}

fn within(what: &str, most: usize) -> String {
    format!("{what} is not 1 to {most}")
}

impl fmt::Display for Refusal {
    fn fmt(&self, f: &mut fmt::Formatter<'_>) -> fmt::Result {
        write!(f, "refused with number {} ({})", self.number(), self.word())?;
        if let Some(place) = self.byte() {
            write!(f, " at byte {place}")?;
        }
        write!(f, ": {}", self.wrong())
    }
}

impl Error for Refusal {}
