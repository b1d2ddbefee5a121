//! The elements of a picture as text: lines, circles, words. Lengths are whole tenths of a unit, so
//! that the same picture always has the same bytes.

use std::fmt::Write;

/// A length or place, in tenths of the picture's unit.
pub type Tenths = i64;

/// The width that is counted for a character of a label, in tenths; in common fonts few are wider.
const CHARACTER: Tenths = 72;

/// From this character on letters are counted as two: those of East Asia are so wide.
const WIDE: char = '\u{1100}';

fn letter_width(letter: char) -> Tenths {
    match letter {
        '…' => CHARACTER,
        letter if letter < WIDE => CHARACTER,
        _ => 2 * CHARACTER,
    }
}

/// The width to leave for a text.
pub fn text_width(text: &str) -> Tenths {
    text.chars().map(letter_width).sum()
}

/// The text, or as much of it as the width has space for.
pub fn fitted(text: &str, width: Tenths) -> String {
    if text_width(text) <= width {
        return text.into();
    }
    let mut cut = String::new();
    let mut rest = width - CHARACTER;
    for letter in text.chars() {
        rest -= letter_width(letter);
        if rest < 0 {
            break;
        }
        cut.push(letter);
    }
    cut + "…"
}

/// A text as it may stand in XML. What XML has no way to say is replaced.
pub fn escaped(text: &str) -> String {
    let mut safe = String::new();
    for letter in text.chars() {
        match letter {
            '&' => safe.push_str("&amp;"),
            '<' => safe.push_str("&lt;"),
            '>' => safe.push_str("&gt;"),
            '"' => safe.push_str("&quot;"),
            '\n' => safe.push('\n'),
            '\u{fffe}' | '\u{ffff}' => safe.push('\u{fffd}'),
            other if other.is_control() => safe.push('\u{fffd}'),
            other => safe.push(other),
        }
    }
    safe
}

/// A length as a decimal number.
pub fn decimal(tenths: Tenths) -> String {
    let sign = if tenths < 0 { "-" } else { "" };
    let (whole, rest) = (tenths.abs() / 10, tenths.abs() % 10);
    match rest {
        0 => format!("{sign}{whole}"),
        rest => format!("{sign}{whole}.{rest}"),
    }
}

/// How a text stands to its place.
#[derive(Clone, Copy, Debug, PartialEq, Eq)]
pub enum Anchor {
    Start,
    Middle,
    End,
}

impl Anchor {
    fn word(self) -> &'static str {
        match self {
            Anchor::Start => "start",
            Anchor::Middle => "middle",
            Anchor::End => "end",
        }
    }
}

/// The text of a picture as it grows.
#[derive(Default)]
pub struct Canvas {
    text: String,
}

/// What every picture starts with: colours for light and dark surroundings.
const STYLE: &str = "<style>
text { font-family: 'DejaVu Sans', Verdana, Arial, sans-serif; font-size: 11px; fill: #1f2328; }
.head { font-size: 15px; font-weight: bold; }
.quiet { fill: #59636e; }
.back { fill: #ffffff; }
.frame { fill: none; stroke: #8c959f; }
.grid { stroke: #e3e7eb; }
.stairs { fill: none; stroke: #0969da; stroke-width: 1.5; }
.ceiling { stroke: #bc4c00; stroke-dasharray: 5 4; }
.mark circle { fill: #0969da; stroke: #ffffff; }
.mark:hover circle { fill: #bc4c00; }
@media (prefers-color-scheme: dark) {
text { fill: #e6edf3; }
.quiet { fill: #9da7b1; }
.back { fill: #0d1117; }
.frame { stroke: #6e7681; }
.grid { stroke: #262c34; }
.stairs { stroke: #58a6ff; }
.ceiling { stroke: #f0883e; }
.mark circle { fill: #58a6ff; stroke: #0d1117; }
.mark:hover circle { fill: #f0883e; }
}
</style>
";

impl Canvas {
    /// The finished picture, with its size and what it shows.
    pub fn finish(self, width: Tenths, height: Tenths, shows: &str) -> String {
        // Whole units, so that a picture of pixels has no half one at its edge.
        let [width, height] = [width, height].map(|length| decimal((length + 9) / 10 * 10));
        let shows = escaped(shows);
        format!(
            "<svg xmlns=\"http://www.w3.org/2000/svg\" width=\"{width}\" height=\"{height}\" \
             viewBox=\"0 0 {width} {height}\" role=\"img\" aria-label=\"{shows}\">\n{STYLE}\
             <rect class=\"back\" width=\"{width}\" height=\"{height}\"/>\n{}</svg>\n",
            self.text
        )
    }

    fn push(&mut self, line: std::fmt::Arguments) {
        // Writing to a string cannot fail.
        let _ = writeln!(self.text, "{line}");
    }

    pub fn line(&mut self, class: &str, [x1, y1]: [Tenths; 2], [x2, y2]: [Tenths; 2]) {
        let [x1, y1, x2, y2] = [x1, y1, x2, y2].map(decimal);
        self.push(format_args!(
            "<line class=\"{class}\" x1=\"{x1}\" y1=\"{y1}\" x2=\"{x2}\" y2=\"{y2}\"/>"
        ));
    }

    pub fn frame(&mut self, [x, y]: [Tenths; 2], [width, height]: [Tenths; 2]) {
        let [x, y, width, height] = [x, y, width, height].map(decimal);
        self.push(format_args!(
            "<rect class=\"frame\" x=\"{x}\" y=\"{y}\" width=\"{width}\" height=\"{height}\"/>"
        ));
    }

    pub fn path(&mut self, class: &str, corners: &[[Tenths; 2]]) {
        let place = |[x, y]: &[Tenths; 2]| format!("{},{}", decimal(*x), decimal(*y));
        let places: Vec<String> = corners.iter().map(place).collect();
        let places = places.join(" ");
        self.push(format_args!(
            "<polyline class=\"{class}\" points=\"{places}\"/>"
        ));
    }

    /// A text whose base line is at this place.
    pub fn text(&mut self, class: &str, [x, y]: [Tenths; 2], anchor: Anchor, text: &str) {
        let ([x, y], anchor, text) = ([x, y].map(decimal), anchor.word(), escaped(text));
        self.push(format_args!(
            "<text class=\"{class}\" x=\"{x}\" y=\"{y}\" text-anchor=\"{anchor}\">{text}</text>"
        ));
    }

    /// A text from below to above whose base line has its middle at this place.
    pub fn upright_text(&mut self, class: &str, [x, y]: [Tenths; 2], text: &str) {
        let ([x, y], text) = ([x, y].map(decimal), escaped(text));
        self.push(format_args!(
            "<text class=\"{class}\" transform=\"translate({x} {y}) rotate(-90)\" \
             text-anchor=\"middle\">{text}</text>"
        ));
    }

    /// A point's mark, and what is shown where the pointer rests on it.
    pub fn mark(&mut self, [x, y]: [Tenths; 2], radius: Tenths, shown: &str) {
        let ([x, y, radius], shown) = ([x, y, radius].map(decimal), escaped(shown));
        self.push(format_args!(
            "<g class=\"mark\"><title>{shown}</title>\
             <circle cx=\"{x}\" cy=\"{y}\" r=\"{radius}\"/></g>"
        ));
    }
}
