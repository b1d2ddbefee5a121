//! Texts that a call reads: which it is asked for, damage of every kind, texts far outside the limits, and the
//! comparison with the independent converter.

use crate::mixed::Mixed;
use crate::random::{random_problem, Shape};
use crate::reading::read_problem;
use crate::said::{laid_out, Said};
use crate::texts::{compare_forms, draw_ends};
use crate::wcsp::{from_text, in_one_objective};
use chooser::junk::Rng;
use frontier::lent::Answer;
use frontier::limits::{MAX_BYTES, TEXT_LEN};

/// What a number is replaced by: negative ones, what is too large for 32 and for 64 bits, and words that are no
/// number.
pub const STRANGE: [&str; 18] = [
    "-1",
    "-0",
    "4294967295",
    "4294967296",
    "18446744073709551615",
    "18446744073709551618",
    "123456789012345678901234567890",
    "-123456789012345678901234567890",
    "word",
    "1.5",
    "0x1",
    "+",
    "-",
    "--1",
    "+-1",
    "0",
    "9",
    "2",
];

/// Upper bounds of which the first and the last are refused.
const BOUNDS: [u64; 4] = [0, 1, 4_294_967_295, 4_294_967_296];

/// How many bytes the problem of a text has; 0 where there is none.
pub fn read_need(text: &[u8]) -> usize {
    from_text(text, &mut vec![0; MAX_BYTES]).count as usize
}

/// Compares a call that reads text with the independent converter on one text, each lent a copy of the
/// buffer. A difference is told with the text.
pub fn compare_read(
    text: &[u8],
    lent: &[u8],
    call: impl Fn(&[u8], &mut [u8]) -> Answer,
) -> Result<(), String> {
    let compared = compare_forms(text, lent, call, from_text);
    let told = |difference| {
        let length = lent.len();
        format!(
            "{difference}, length {length}, text {}",
            text.escape_ascii()
        )
    };
    compared.map(|_| ()).map_err(told)
}

/// The text of a seed: one in three is well formed, the others are damaged; one in eight is far outside the
/// limits.
pub fn generated(rng: &mut Rng) -> Vec<u8> {
    if rng.once_in(8) {
        let far = far_words(rng);
        return damaged(rng, far, 3);
    }
    let shape = match rng.below(40) {
        0 => Shape::wide(),
        1..=4 => Shape::many_variables(),
        _ => Shape {
            variables: 4,
            tables: 4,
            choices: 40,
            ..Shape::small()
        },
    };
    let mut problem = in_one_objective(&random_problem(rng, &shape));
    draw_ends(rng, &mut problem);
    let mut said = Said::of(rng, &problem);
    if rng.once_in(8) {
        said.bound = rng.pick(&BOUNDS);
    }
    let words = said.words(rng);
    damaged(rng, words, 3)
}

/// The words laid out, after some damage but once in so many times.
pub fn damaged(rng: &mut Rng, mut words: Vec<String>, whole: usize) -> Vec<u8> {
    if rng.once_in(whole) {
        return laid_out(rng, &words);
    }
    for _ in 0..1 + rng.below(4) / 2 {
        damage_word(rng, &mut words);
    }
    let mut text = laid_out(rng, &words);
    match rng.below(8) {
        0 => text.truncate(rng.below(text.len() + 1)),
        1 if !text.is_empty() => {
            let place = rng.below(text.len());
            text[place] = rng.bits() as u8;
        }
        2 if !text.is_empty() => {
            let place = rng.below(text.len());
            text[place] = rng.pick(b" 0123456789-+x\n");
        }
        _ => (),
    }
    text
}

/// A word replaced, left out, written twice or exchanged with another.
fn damage_word(rng: &mut Rng, words: &mut Vec<String>) {
    if words.is_empty() {
        return;
    }
    // The first words and the last decide most.
    let place = match rng.below(4) {
        0 => rng.below(words.len().min(12)),
        1 => words.len() - 1 - rng.below(words.len().min(6)),
        _ => rng.below(words.len()),
    };
    match rng.below(12) {
        0 => drop(words.remove(place)),
        1 => words.insert(place, words[place].clone()),
        2 => {
            let other = rng.below(words.len());
            words.swap(place, other);
        }
        3 => words.push(rng.pick(&STRANGE).into()),
        4..=6 => words[place] = rng.below(12).to_string(),
        _ => words[place] = rng.pick(&STRANGE).into(),
    }
}

/// A domain size beyond 32 bits, with a value of it that is one less or has a digit less.
const LONG: [(&str, &str); 3] = [
    ("18446744073709551618", "18446744073709551617"),
    ("4294967297", "4294967296"),
    (
        "123456789012345678901234567890",
        "99999999999999999999999999999",
    ),
];

/// Domain sizes of which some are long, as words; and for each the values that are below it, by a short one.
struct FarSizes {
    /// 0 stands for the long size.
    sizes: Vec<usize>,
    long: (&'static str, &'static str),
}

impl FarSizes {
    fn new(rng: &mut Rng) -> FarSizes {
        let variables = rng.pick(&[1, 3, 24, 25, 100, 300, 1_000]);
        let sizes = (0..variables).map(|_| rng.pick(&[1, 2, 8, 9, 40, 0]));
        FarSizes {
            sizes: sizes.collect(),
            long: rng.pick(&LONG),
        }
    }

    fn size(&self, size: usize) -> String {
        match size {
            0 => self.long.0.into(),
            size => size.to_string(),
        }
    }

    fn largest(&self) -> String {
        let largest = self.sizes.iter().max().expect("a variable");
        self.size(if self.sizes.contains(&0) { 0 } else { *largest })
    }

    /// A value that the variable has.
    fn value(&self, rng: &mut Rng, variable: usize) -> String {
        match self.sizes[variable] {
            0 => self.long.1.into(),
            size => rng.below(size).to_string(),
        }
    }
}

/// The words of a text far outside the limits: up to 1,000 variables, sizes and values of any length, scopes of
/// up to nine variables, some of them twice, and tuples of which some are given twice.
fn far_words(rng: &mut Rng) -> Vec<String> {
    let far = FarSizes::new(rng);
    let (variables, functions) = (far.sizes.len(), rng.below(4));
    let bound = rng.pick(&["9", "0", far.long.1]);
    let mut words = vec!["far".into(), variables.to_string(), far.largest()];
    words.extend([functions.to_string(), bound.into()]);
    words.extend(far.sizes.iter().map(|&size| far.size(size)));
    for _ in 0..functions {
        let arity = rng.pick(&[0, 1, 2, 3, 4, 9]);
        let scope: Vec<usize> = (0..arity).map(|_| rng.below(variables)).collect();
        let tuples = if arity == 0 { 0 } else { rng.below(4) };
        words.push(arity.to_string());
        words.extend(scope.iter().map(usize::to_string));
        words.extend(["5".into(), tuples.to_string()]);
        for _ in 0..tuples {
            words.extend(scope.iter().map(|&v| far.value(rng, v)));
            words.push("7".into());
        }
    }
    words
}

impl Mixed {
    /// What a reading call is asked for: the case's bytes as they are, and of an accepted problem a text in
    /// some layout, good and damaged, none longer than what is written.
    pub fn read_inputs(&self) -> Vec<Vec<u8>> {
        let mut inputs = vec![self.bytes.clone()];
        if let Ok(reading) = read_problem(&self.bytes) {
            let rng = &mut self.text_rng();
            let mut problem = in_one_objective(&reading.problem);
            draw_ends(rng, &mut problem);
            let said = Said::of(rng, &problem);
            inputs.push(said.text(rng));
            let words = said.words(rng);
            inputs.push(damaged(rng, words, 1 << 30));
        }
        inputs.iter_mut().for_each(|text| text.truncate(TEXT_LEN));
        inputs
    }

    /// Compares a call that reads text with the independent converter, lent a buffer with junk of one of the
    /// lengths that matter. A difference is told with the seed and the text.
    pub fn compare_reads(&self, call: impl Fn(&[u8], &mut [u8]) -> Answer) -> Result<(), String> {
        self.compare_each(self.read_inputs(), read_need, |text, lent| {
            compare_read(text, lent, &call)
        })
    }
}
