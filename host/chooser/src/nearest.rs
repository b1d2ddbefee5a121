//! The nearest of some known words, for a word that is not known.

/// How many letters must be put in, left out or exchanged for others to make one word of another.
fn distance(one: &str, other: &str) -> usize {
    let other: Vec<char> = other.chars().collect();
    let mut row: Vec<usize> = (0..=other.len()).collect();
    for (i, letter) in one.chars().enumerate() {
        let mut diagonal = row[0];
        row[0] = i + 1;
        for (j, &due) in other.iter().enumerate() {
            let exchanged = diagonal + usize::from(letter != due);
            diagonal = row[j + 1];
            row[j + 1] = exchanged.min(diagonal + 1).min(row[j] + 1);
        }
    }
    row[other.len()]
}

/// The known word that is nearest to this one, unless all are far from it. Of several the first.
pub fn nearest<'a>(word: &str, known: impl IntoIterator<Item = &'a str>) -> Option<&'a str> {
    /// Longer words are not compared: they are no slip of the hand.
    const LONGEST: usize = 60;
    if word.len() > LONGEST {
        return None;
    }
    let near = |known: &&str| {
        let length = known.chars().count();
        distance(word, known) <= length.div_ceil(3).min(length.saturating_sub(1))
    };
    let known = known.into_iter().filter(near);
    known.min_by_key(|known| distance(word, known))
}

/// A question for the nearest known word, or else the advice.
pub fn or_nearest<'a>(
    word: &str,
    known: impl IntoIterator<Item = &'a str>,
    advice: &str,
) -> String {
    match nearest(word, known) {
        Some(known) => format!("did you mean '{known}'?"),
        None => advice.into(),
    }
}

#[cfg(test)]
mod tests {
    use super::nearest;

    #[test]
    fn slips_of_the_hand_are_near_and_other_words_are_not() {
        let known = ["solve", "cut", "bound", "pack", "unpack"];
        for (word, due) in [
            ("slove", "solve"),
            ("cot", "cut"),
            ("unpak", "unpack"),
            ("pakc", "pack"),
        ] {
            assert_eq!(nearest(word, known), Some(due));
        }
        for word in ["frobnicate", "", "night"] {
            assert_eq!(nearest(word, known), None);
        }
        assert_eq!(nearest("b", ["a"]), None);
    }
}
