//! Problems to WCSP text and back: the format of toulbar2 and other solvers of weighted constraint problems.

use crate::lent::{self, Answer};
use crate::limits::{MAX_BYTES, TEXT_LEN};
use crate::refusal::{check, Refusal};

/// A problem with one objective as WCSP text, in which the same choices are allowed and cost the same. The
/// upper bound, which a cost stays below, is one above the ceiling; a forbidden entry costs as much. Records keep
/// their order. With more objectives, or under the ceiling 4,294,967,295, it is [`Refusal::Dialect`].
///
/// ```
/// use frontier::{to_text, Problem, Table, FORBIDDEN};
///
/// // Two modules with two variants each, and what the pairs of variants cost.
/// let problem = Problem {
///     ceilings: vec![100],
///     domains: vec![2, 2],
///     tables: vec![Table::new(0, &[], &[7]), Table::new(0, &[1, 0], &[30, 0, 0, FORBIDDEN])],
/// };
/// assert_eq!(
///     to_text(&problem.encode())?,
///     "P 2 2 2 101\n2 2\n0 7 0\n2 1 0 0 2\n0 0 30\n1 1 101\n"
/// );
/// # Ok::<(), frontier::Refusal>(())
/// ```
pub fn to_text(problem: &[u8]) -> Result<String, Refusal> {
    // As long as a text of so many bytes can be. A problem that is too long is refused anyway.
    let most = problem.len().min(MAX_BYTES) * TEXT_LEN / MAX_BYTES;
    let text = made(lent::to_text, problem, most)?;
    Ok(String::from_utf8(text).expect("the text has digits, spaces, line feeds and a P"))
}

/// The problem that a WCSP text says, with one objective, in which every choice costs the same. The ceiling is
/// one below the upper bound, and functions keep their order. A text that is none is [`Refusal::Text`], and one
/// that says what a problem cannot have, an upper bound of 0 for example, is [`Refusal::Dialect`].
///
/// ```
/// use frontier::{from_text, Problem, Refusal, Table};
///
/// // Two variables of two values; equal values cost 5, others the default, which is 1.
/// let problem = Problem::decode(&from_text(b"same 2 2 1 100  2 2  2 0 1 1 2  0 0 5  1 1 5")?)?;
/// assert_eq!(problem.ceilings, [99]);
/// assert_eq!(problem.tables, [Table::new(0, &[0, 1], &[5, 1, 1, 5])]);
/// assert_eq!(from_text(b"same 2 2"), Err(Refusal::Text));
/// # Ok::<(), Refusal>(())
/// ```
pub fn from_text(text: &[u8]) -> Result<Vec<u8>, Refusal> {
    made(lent::from_text, text, MAX_BYTES)
}

/// What a converting call makes of a form, in at most so many bytes.
fn made(
    call: fn(&[u8], &mut [u8]) -> Answer,
    form: &[u8],
    most: usize,
) -> Result<Vec<u8>, Refusal> {
    let mut made = vec![0; most];
    let answer = call(form, &mut made);
    check(answer.number, answer.place)?;
    made.truncate(answer.count as usize);
    Ok(made)
}
