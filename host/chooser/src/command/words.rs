//! The words of a subcommand, sorted into operands and options.

use std::ffi::{OsStr, OsString};

use super::Failure;
use crate::nearest::or_nearest;

/// An option that a subcommand knows: its name, as `--room`, and what it takes, as `N`; an empty
/// text for an option that takes nothing.
pub type Known = (&'static str, &'static str);

/// What the words of a subcommand ask for.
#[derive(Debug, Default)]
pub struct Asked {
    operands: Vec<OsString>,
    options: Vec<(&'static str, OsString)>,
}

/// Sorts the words. An option's value is the next word or stands behind `=`. After a word `--` all
/// are operands, and `-` is one.
pub fn sort_words(words: &[OsString], known: &[Known]) -> Result<Asked, Failure> {
    let mut asked = Asked::default();
    let mut rest = words.iter();
    while let Some(word) = rest.next() {
        if word == "--" {
            asked.operands.extend(rest.cloned());
            break;
        }
        match option_in(word, known)? {
            None => asked.operands.push(word.clone()),
            Some(((name, _), _)) if asked.has(name) => {
                let complaint = format!("{name} stands twice; leave one of the two out");
                return Err(Failure::misuse(complaint));
            }
            Some(((name, ""), None)) => asked.options.push((name, OsString::new())),
            Some(((name, ""), Some(value))) => {
                let complaint = format!("{name} takes nothing; leave '={value}' out");
                return Err(Failure::misuse(complaint));
            }
            Some(((name, takes), value)) => {
                let value = value.map(OsString::from).or_else(|| rest.next().cloned());
                let missing = || Failure::misuse(format!("behind {name} its {takes} is due"));
                asked.options.push((name, value.ok_or_else(missing)?));
            }
        }
    }
    Ok(asked)
}

/// The known option that a word names, and what stands behind `=` in it; none for an operand.
fn option_in<'a>(
    word: &'a OsStr,
    known: &[Known],
) -> Result<Option<(Known, Option<&'a str>)>, Failure> {
    let Some(text) = word.to_str().filter(|text| text.len() > 1) else {
        return Ok(None);
    };
    if !text.starts_with('-') {
        return Ok(None);
    }
    let (name, value) = match text.split_once('=') {
        Some((name, value)) => (name, Some(value)),
        None => (text, None),
    };
    match known.iter().find(|option| option.0 == name) {
        Some(&option) => Ok(Some((option, value))),
        None => {
            let names = known.iter().map(|option| option.0);
            let nearest = or_nearest(name, names, "see --help");
            let complaint = format!("there is no option '{name}' here; {nearest}");
            Err(Failure::misuse(complaint))
        }
    }
}

impl Asked {
    /// Whether the option stands among the words.
    pub fn has(&self, name: &str) -> bool {
        self.value(name).is_some()
    }

    /// What the option was given; none without the option.
    pub fn value(&self, name: &str) -> Option<&OsStr> {
        let given = self.options.iter().find(|(option, _)| *option == name);
        given.map(|(_, value)| value.as_os_str())
    }

    /// The whole number that the option was given, if it stands among the words. It must be in the
    /// range.
    pub fn number(
        &self,
        name: &str,
        range: std::ops::RangeInclusive<usize>,
    ) -> Result<Option<usize>, Failure> {
        let Some(value) = self.value(name) else {
            return Ok(None);
        };
        let number = value.to_str().and_then(|text| text.parse().ok());
        match number.filter(|number| range.contains(number)) {
            Some(number) => Ok(Some(number)),
            None => Err(Failure::misuse(format!(
                "{name} takes a number from {} to {}, and '{}' is none",
                range.start(),
                range.end(),
                value.to_string_lossy()
            ))),
        }
    }

    /// The operands, of which there must be one at least; they all have this name.
    pub fn some_operands(&self, name: &str) -> Result<&[OsString], Failure> {
        match self.operands.is_empty() {
            true => Err(Failure::misuse(format!("{name} is missing; see --help"))),
            false => Ok(&self.operands),
        }
    }

    /// The operands, of which there must be one for each name.
    pub fn operands<const COUNT: usize>(
        &self,
        names: [&str; COUNT],
    ) -> Result<[&OsStr; COUNT], Failure> {
        if let Some(missing) = names.get(self.operands.len()) {
            let complaint = format!("{missing} is missing; see --help");
            return Err(Failure::misuse(complaint));
        }
        if let Some(extra) = self.operands.get(COUNT) {
            let extra = extra.to_string_lossy();
            let complaint = format!("'{extra}' is one word too many; see --help");
            return Err(Failure::misuse(complaint));
        }
        Ok(std::array::from_fn(|i| self.operands[i].as_os_str()))
    }
}
