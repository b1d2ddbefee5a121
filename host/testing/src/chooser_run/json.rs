//! A strict reader of JSON, to see that what is printed is JSON and says what it should.

use std::collections::BTreeMap;

#[derive(Clone, Debug, PartialEq)]
pub enum Value {
    Null,
    Number(u64),
    Text(String),
    List(Vec<Value>),
    Object(BTreeMap<String, Value>),
}

impl Value {
    /// The member of an object.
    pub fn at(&self, name: &str) -> &Value {
        match self {
            Value::Object(members) => members.get(name).unwrap_or(&Value::Null),
            other => panic!("no object with '{name}': {other:?}"),
        }
    }

    pub fn items(&self) -> &[Value] {
        match self {
            Value::List(items) => items,
            other => panic!("no list: {other:?}"),
        }
    }

    pub fn number(&self) -> u64 {
        match self {
            Value::Number(number) => *number,
            other => panic!("no number: {other:?}"),
        }
    }

    pub fn numbers(&self) -> Vec<u64> {
        self.items().iter().map(Value::number).collect()
    }

    pub fn text(&self) -> &str {
        match self {
            Value::Text(text) => text,
            other => panic!("no text: {other:?}"),
        }
    }

    pub fn texts(&self) -> Vec<&str> {
        self.items().iter().map(Value::text).collect()
    }
}

/// The value that a whole text is; a line feed may end it.
pub fn parse(text: &str) -> Value {
    let text = text.strip_suffix('\n').unwrap_or(text);
    let mut rest = text.chars().collect::<Vec<char>>();
    rest.reverse();
    let value = take_value(&mut rest);
    assert!(rest.is_empty(), "more behind the value: {text}");
    value
}

/// Takes a value off the end of the reversed text.
fn take_value(rest: &mut Vec<char>) -> Value {
    match rest.last().copied().expect("a value is due") {
        '"' => Value::Text(take_text(rest)),
        '[' => {
            let mut items = Vec::new();
            take_between(rest, ['[', ']'], |rest| items.push(take_value(rest)));
            Value::List(items)
        }
        '{' => {
            let mut members = BTreeMap::new();
            take_between(rest, ['{', '}'], |rest| {
                let name = take_text(rest);
                expect(rest, ':');
                let old = members.insert(name, take_value(rest));
                assert_eq!(old, None, "a name stands twice");
            });
            Value::Object(members)
        }
        'n' => {
            "null".chars().for_each(|letter| expect(rest, letter));
            Value::Null
        }
        _ => {
            let mut digits = String::new();
            while rest.last().is_some_and(char::is_ascii_digit) {
                digits.extend(rest.pop());
            }
            assert!(digits == "0" || !digits.starts_with('0'), "{digits}");
            Value::Number(digits.parse().expect("a number is due"))
        }
    }
}

fn expect(rest: &mut Vec<char>, due: char) {
    assert_eq!(rest.pop(), Some(due));
}

fn take_between(rest: &mut Vec<char>, marks: [char; 2], mut take: impl FnMut(&mut Vec<char>)) {
    expect(rest, marks[0]);
    while rest.last() != Some(&marks[1]) {
        take(rest);
        if rest.last() != Some(&marks[1]) {
            expect(rest, ',');
            assert_ne!(rest.last(), Some(&marks[1]), "a comma before the end");
        }
    }
    expect(rest, marks[1]);
}

fn take_text(rest: &mut Vec<char>) -> String {
    let mut text = String::new();
    expect(rest, '"');
    loop {
        match rest.pop().expect("a quote is due") {
            '"' => return text,
            '\\' => text.push(match rest.pop() {
                Some('u') => {
                    let digits: String = (0..4).filter_map(|_| rest.pop()).collect();
                    let code = u32::from_str_radix(&digits, 16).expect("four digits are due");
                    char::from_u32(code).expect("a character's number is due")
                }
                Some(letter @ ('"' | '\\')) => letter,
                other => panic!("no escape: {other:?}"),
            }),
            letter => {
                assert!(letter >= ' ', "a control character stands bare");
                text.push(letter);
            }
        }
    }
}
