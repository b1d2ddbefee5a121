//! Texts far outside the limits, which a reader must go through all the same because 17 may stand in their
//! last word: each kind at any size, to see how the time grows.

use std::iter::repeat_n;

/// A kind of hostile text, by about how many words it is made of.
pub struct Kind {
    pub name: &'static str,
    pub text: fn(usize) -> String,
}

/// How many words the largest texts are made of.
pub const MOST_WORDS: usize = 1_000_000;

/// There are at most so many variables.
const MOST_VARIABLES: usize = 60_000;

/// Zeros in front of a number, where there are many.
const ZEROS: usize = 100;

pub const KINDS: [Kind; 6] = [
    Kind {
        name: "many variables, each looked up",
        text: many_variables,
    },
    Kind {
        name: "scopes of nine variables",
        text: wide_scopes,
    },
    Kind {
        name: "one scope of half the words",
        text: one_scope,
    },
    Kind {
        name: "one function of many tuples",
        text: many_tuples,
    },
    Kind {
        name: "numbers of 40 digits",
        text: long_numbers,
    },
    Kind {
        name: "words of 100 zeros",
        text: zeros,
    },
];

/// So many variables for a text of so many words.
fn variables(words: usize) -> usize {
    (words / 16).min(MOST_VARIABLES)
}

/// A text of variables of one size, with these functions.
fn network(variables: usize, size: &str, functions: &[String]) -> String {
    let sizes = repeat_n(size, variables).collect::<Vec<_>>().join(" ");
    let (count, functions) = (functions.len(), functions.join("\n"));
    format!("far {variables} {size} {count} 9\n{sizes}\n{functions}\n")
}

/// Variable numbers that jump about, the same in each run.
fn jumping(variables: usize) -> impl FnMut() -> usize {
    let mut at = 0;
    move || {
        at = (at + 7_919) % variables;
        at
    }
}

fn many_variables(words: usize) -> String {
    let n = variables(words);
    let mut next = jumping(n);
    let functions = (0..(words - n) / 6).map(|_| format!("1 {} 0 1 1 5", next()));
    network(n, "2", &functions.collect::<Vec<_>>())
}

fn wide_scopes(words: usize) -> String {
    let n = variables(words);
    let mut next = jumping(n);
    let mut function = || {
        let scope: Vec<String> = (0..9).map(|_| next().to_string()).collect();
        let tuples = "1 0 1 0 1 0 1 0 1 5\n".repeat(10);
        format!("9 {} 0 10\n{tuples}", scope.join(" "))
    };
    let functions = (0..(words - n) / 112).map(|_| function());
    network(n, "2", &functions.collect::<Vec<_>>())
}

fn one_scope(words: usize) -> String {
    let (n, arity) = (variables(words), words / 2);
    let mut next = jumping(n);
    let scope: Vec<String> = (0..arity).map(|_| next().to_string()).collect();
    let values = "1 ".repeat(arity);
    network(
        n,
        "2",
        &[format!("{arity} {} 0 1\n{values}5", scope.join(" "))],
    )
}

fn many_tuples(words: usize) -> String {
    let tuples = words / 4;
    let lines: String = (0..tuples)
        .map(|i| format!("{} {} 8 5\n", i % 9, i / 9 % 9))
        .collect();
    network(3, "9", &[format!("3 0 1 2 0 {tuples}\n{lines}")])
}

fn long_numbers(words: usize) -> String {
    let size = "9".repeat(40);
    let value = format!("{}8", "9".repeat(39));
    let tuples = words / 8;
    let lines = format!("{value} 5\n").repeat(tuples);
    network(1, &size, &[format!("1 0 0 {tuples}\n{lines}")])
}

fn zeros(words: usize) -> String {
    let zeros = "0".repeat(ZEROS);
    let tuples = words / 32;
    let lines = format!("{zeros}8 {zeros}5\n").repeat(tuples);
    network(1, "9", &[format!("1 0 0 {tuples}\n{lines}")])
}
