//! An axis: the range of one objective's costs, its ticks at round numbers, and where a cost stands.

use super::svg::{text_width, Tenths};

/// A range of costs from one round number to another, on a stretch of the picture.
#[derive(Clone, Copy, Debug, PartialEq, Eq)]
pub struct Axis {
    pub low: u64,
    pub high: u64,
    pub step: u64,
}

/// Which way an axis lies, and so how many labels it has space for.
#[derive(Clone, Copy, Debug, PartialEq, Eq)]
pub enum Direction {
    Across,
    Up,
}

/// Between the labels of two ticks there is at least this much space, in tenths.
const GAP: Tenths = 160;

/// A label takes this much height with the space around it, in tenths.
const LINE: Tenths = 340;

impl Axis {
    /// The axis with the finest ticks, for costs from one to another on a stretch of this length.
    pub fn new(least: u32, greatest: u32, length: Tenths, direction: Direction) -> Axis {
        let (least, greatest) = match (u64::from(least), u64::from(greatest)) {
            (0, 0) => (0, 1),
            // One cost alone is told by its distance from 0.
            (only, same) if only == same => (0, same),
            ends => ends,
        };
        let mut steps = steps();
        loop {
            let step = steps
                .next()
                .expect("the greatest step has space everywhere");
            let axis = Axis {
                low: least / step * step,
                high: greatest.div_ceil(step) * step,
                step,
            };
            if axis.fits(length, direction) {
                return axis;
            }
        }
    }

    /// Whether the labels of all ticks have space. Two of them are allowed everywhere.
    fn fits(&self, length: Tenths, direction: Direction) -> bool {
        let between = (self.high - self.low) / self.step;
        let label = match direction {
            Direction::Across => text_width(&grouped(self.high)) + GAP,
            Direction::Up => LINE,
        };
        between <= 1 || between <= (length / label) as u64
    }

    /// The round numbers with a tick.
    pub fn ticks(&self) -> impl Iterator<Item = u64> {
        (self.low..=self.high).step_by(self.step as usize)
    }

    /// How far from the low end a cost stands on a stretch of this length.
    pub fn offset(&self, cost: u64, length: Tenths) -> Tenths {
        let (above, range) = (
            i128::from(cost - self.low),
            i128::from(self.high - self.low),
        );
        (above * i128::from(length) / range) as Tenths
    }

    /// The width of the widest label.
    pub fn label_width(&self) -> Tenths {
        text_width(&grouped(self.high))
    }
}

/// The round numbers that a step can be: 1, 2, 5, 10, 20, and so on.
fn steps() -> impl Iterator<Item = u64> {
    let power = |exponent| 10_u64.pow(exponent);
    (0..=12).flat_map(move |exponent| [1, 2, 5].map(|digit| digit * power(exponent)))
}

/// A number with a comma before each three digits.
pub fn grouped(number: u64) -> String {
    let digits = number.to_string();
    let mut text = String::new();
    for (place, digit) in digits.chars().enumerate() {
        if place > 0 && (digits.len() - place) % 3 == 0 {
            text.push(',');
        }
        text.push(digit);
    }
    text
}
