//! What the plain search can do without: each simplification is a setting, so that its cost can be
//! measured before anything is proved about it.

use std::ops::RangeInclusive;

/// How the plain search works. No setting changes an answer.
#[derive(Clone, Copy, Debug, PartialEq, Eq)]
pub struct Settings {
    /// All messages together have at most this many numbers, one for each entry and direction.
    pub numbers: usize,
    /// There are at most this many messages.
    pub messages: usize,
    /// Memory is shared out to a bucket's parts one after the other, instead of to all alike.
    pub by_part: bool,
    /// What a message leaves of its part of a bucket goes on to the next part.
    pub rest: bool,
    /// A message is over at most this many earlier variables, in the first plan over at most two.
    pub width: usize,
    /// The parts of a bucket share alike what they have at least.
    pub shared: bool,
    /// Min-degree order instead of the natural one.
    pub min_degree: bool,
    /// So many plans are tried in turn; the last one, of the kind that came furthest, is followed to its end.
    pub turns: usize,
    /// A plan in turn may open so many positions, or a few times as many.
    pub budget: usize,
    /// Plans in turn have orders and weights of up to four kinds.
    pub kinds: bool,
    /// Where a ceiling binds, one sum is weighted by what the ceilings leave.
    pub slacks: bool,
    /// Values by the rising leading sum of their bounds instead of in natural order.
    pub sorted: bool,
    /// There are at most this many search zones.
    pub zones: usize,
    /// So many weighted sums are directions where there are several objectives.
    pub sums: usize,
    /// The tie rule looks at the sums too.
    pub tie_sums: bool,
}

/// A message is over at most this many earlier variables.
pub const MOST_WIDTH: usize = 3;

/// There are at most this many turns.
pub const MOST_TURNS: usize = 5;

/// There are at most this many sums.
pub const MOST_SUMS: usize = 4;

/// The settings by name, for a usage text.
pub const SETTINGS: &str =
    "  numbers=N          all messages together have at most N numbers (5600)
  messages=N         at most N messages (160)
  memory=bucket|part messages of a bucket are alike wide, or each as wide as it can be (bucket)
  rest=yes|no        what a message leaves goes on to the next part of its bucket (yes)
  width=0|1|2|3      a message is over at most so many variables, of the first plan two (3)
  parts=shared|alone what the parts of a bucket have at least is shared alike (shared)
  order=min-degree|natural
  turns=1..5         so many plans in turn, the last one without a budget (5)
  budget=N           a plan in turn may open N positions, or a few times as many (50000)
  kinds=four|one     plans in turn have other orders and weights (four)
  slacks=yes|no      a sum by what the ceilings leave, where one binds (yes)
  values=sorted|natural
  zones=N            at most N search zones (128)
  sums=1|2|3|4       weighted sums of the objectives (4)
  ties=sums|costs    what the tie rule compares (sums)";

impl Default for Settings {
    fn default() -> Settings {
        Settings {
            numbers: 5_600,
            messages: 160,
            by_part: false,
            rest: true,
            width: MOST_WIDTH,
            shared: true,
            min_degree: true,
            turns: MOST_TURNS,
            budget: 50_000,
            kinds: true,
            slacks: true,
            sorted: true,
            zones: 128,
            sums: MOST_SUMS,
            tie_sums: true,
        }
    }
}

impl Settings {
    /// The default with some settings changed: NAME=VALUE with commas between.
    pub fn parse(text: &str) -> Result<Settings, String> {
        let mut settings = Settings::default();
        for change in text.split(',') {
            settings.change(change)?;
        }
        Ok(settings)
    }

    fn change(&mut self, change: &str) -> Result<(), String> {
        let (name, value) = change
            .split_once('=')
            .ok_or_else(|| format!("'{change}' is no setting of the form NAME=VALUE"))?;
        match name {
            "numbers" => self.numbers = number_in(change, value, 0..=usize::MAX)?,
            "messages" => self.messages = number_in(change, value, 0..=usize::MAX)?,
            "memory" => self.by_part = first_of(change, value, ["part", "bucket"])?,
            "rest" => self.rest = first_of(change, value, ["yes", "no"])?,
            "width" => self.width = number_in(change, value, 0..=MOST_WIDTH)?,
            "parts" => self.shared = first_of(change, value, ["shared", "alone"])?,
            "turns" => self.turns = number_in(change, value, 1..=MOST_TURNS)?,
            "budget" => self.budget = number_in(change, value, 1..=1 << 32)?,
            "kinds" => self.kinds = first_of(change, value, ["four", "one"])?,
            "slacks" => self.slacks = first_of(change, value, ["yes", "no"])?,
            "order" => self.min_degree = first_of(change, value, ["min-degree", "natural"])?,
            "values" => self.sorted = first_of(change, value, ["sorted", "natural"])?,
            "zones" => self.zones = number_in(change, value, 1..=usize::MAX)?,
            "sums" => self.sums = number_in(change, value, 1..=MOST_SUMS)?,
            "ties" => self.tie_sums = first_of(change, value, ["sums", "costs"])?,
            _ => return Err(format!("there is no setting '{name}'")),
        }
        Ok(())
    }
}

fn number_in(change: &str, value: &str, range: RangeInclusive<usize>) -> Result<usize, String> {
    let number = value.parse().ok().filter(|number| range.contains(number));
    let most = match *range.end() {
        usize::MAX => "on".to_string(),
        most => format!("to {most}"),
    };
    number.ok_or_else(|| format!("'{change}' takes a number from {} {most}", range.start()))
}

/// Whether a value is the first of two words; it must be one of them.
fn first_of(change: &str, value: &str, words: [&str; 2]) -> Result<bool, String> {
    let place = words.iter().position(|&word| word == value);
    let [one, other] = words;
    let number = place.ok_or_else(|| format!("'{change}' takes '{one}' or '{other}'"))?;
    Ok(number == 0)
}
