//! JSON values, and their text.

use std::fmt;

/// A value of JSON, as far as this package writes it.
#[derive(Clone, Debug, PartialEq, Eq)]
pub enum Json {
    Null,
    Number(u64),
    Text(String),
    List(Vec<Json>),
    /// The members stand in this order.
    Object(Vec<(&'static str, Json)>),
}

impl Json {
    pub fn text(text: impl Into<String>) -> Json {
        Json::Text(text.into())
    }

    pub fn numbers<N: Copy + Into<u64>>(numbers: &[N]) -> Json {
        Json::List(numbers.iter().map(|&n| Json::Number(n.into())).collect())
    }

    pub fn texts<S: AsRef<str>>(texts: impl IntoIterator<Item = S>) -> Json {
        let texts = texts.into_iter();
        Json::List(texts.map(|text| Json::text(text.as_ref())).collect())
    }
}

impl fmt::Display for Json {
    fn fmt(&self, f: &mut fmt::Formatter) -> fmt::Result {
        match self {
            Json::Null => f.write_str("null"),
            Json::Number(number) => write!(f, "{number}"),
            Json::Text(text) => write_text(f, text),
            Json::List(items) => {
                let item = |f: &mut fmt::Formatter, item: &Json| write!(f, "{item}");
                write_between(f, ['[', ']'], items, item)
            }
            Json::Object(members) => write_between(f, ['{', '}'], members, |f, (name, value)| {
                write_text(f, name)?;
                write!(f, ":{value}")
            }),
        }
    }
}

/// Writes items with commas, between two marks.
fn write_between<T>(
    f: &mut fmt::Formatter,
    marks: [char; 2],
    items: &[T],
    write: impl Fn(&mut fmt::Formatter, &T) -> fmt::Result,
) -> fmt::Result {
    write!(f, "{}", marks[0])?;
    for (place, item) in items.iter().enumerate() {
        if place > 0 {
            f.write_str(",")?;
        }
        write(f, item)?;
    }
    write!(f, "{}", marks[1])
}

/// Writes a text between quotes; quotes, backslashes and control characters are escaped.
fn write_text(f: &mut fmt::Formatter, text: &str) -> fmt::Result {
    f.write_str("\"")?;
    for letter in text.chars() {
        match letter {
            '"' | '\\' => write!(f, "\\{letter}")?,
            _ if letter.is_control() => write!(f, "\\u{:04x}", u32::from(letter))?,
            _ => write!(f, "{letter}")?,
        }
    }
    f.write_str("\"")
}

#[cfg(test)]
mod tests {
    use super::Json;

    #[test]
    fn values_have_the_text_of_json() {
        let value = Json::Object(vec![
            ("none", Json::Null),
            ("numbers", Json::numbers(&[0u32, u32::MAX])),
            (
                "texts",
                Json::texts(["a\"b\\c", "line\nend\u{7f}", "größe"]),
            ),
            ("empty", Json::List(Vec::new())),
        ]);
        let due = r#"{"none":null,"numbers":[0,4294967295],"texts":["a\"b\\c","line\u000aend\u007f","größe"],"empty":[]}"#;
        assert_eq!(value.to_string(), due);
    }
}
