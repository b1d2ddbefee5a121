//! What files cite is there: a section of `docs/REFERENCE.md` that is named has that number, and no
//! file cites a document by a number, since the repository has none such.

use std::fs;
use std::path::{Path, PathBuf};

use testing::places::root;

/// The files of a folder and of those in it whose names end in one of these, without what is built.
fn texts(folder: &Path, found: &mut Vec<PathBuf>) {
    const ENDS: [&str; 6] = ["antt", "rt", "rs", "md", "h", "c"];
    for entry in fs::read_dir(folder).expect("the folder can be read") {
        let path = entry.expect("it has entries").path();
        let name = path.file_name().and_then(|name| name.to_str());
        if path.is_dir() && !matches!(name, Some("target" | "out" | ".git")) {
            texts(&path, found);
        } else if ENDS
            .iter()
            .any(|&end| path.extension().is_some_and(|e| e == end))
        {
            found.push(path);
        }
    }
}

/// Every text of the repository, with line breaks and the marks of comments as one space.
fn each_text(mut look: impl FnMut(&Path, &str)) {
    let mut found = Vec::new();
    texts(&root(), &mut found);
    assert!(found.len() > 500, "only {} files are there", found.len());
    for path in found {
        let text = fs::read_to_string(&path).expect("it is text");
        let words = text.split_whitespace();
        let told: Vec<&str> = words
            .filter(|word| !["--", "//", "///", "//!"].contains(word))
            .collect();
        look(&path, &told.join(" "));
    }
}

/// The number that a text starts with.
fn leading_number(text: &str) -> Option<u32> {
    let end = text
        .find(|c: char| !c.is_ascii_digit())
        .unwrap_or(text.len());
    text[..end].parse().ok()
}

/// The sections named behind the word "section": one, or after "sections" those of "4 and 5".
fn cited_numbers(behind: &str) -> Vec<u32> {
    match behind.strip_prefix("s ") {
        Some(several) => several
            .split(" and ")
            .map_while(leading_number)
            .take(2)
            .collect(),
        None => leading_number(behind.trim_start()).into_iter().collect(),
    }
}

#[test]
fn cited_sections_are_there() {
    let reference = fs::read_to_string(root().join("docs/REFERENCE.md")).expect("it is there");
    let sections: Vec<u32> = reference
        .lines()
        .filter_map(|line| leading_number(line.strip_prefix("## ")?))
        .collect();
    let count = sections.len() as u32;
    assert_eq!(sections, (1..=count).collect::<Vec<u32>>());
    let mut cited = 0;
    each_text(|path, text| {
        for (start, words) in text.match_indices("eference, section") {
            for number in cited_numbers(&text[start + words.len()..]) {
                assert!(
                    (1..=count).contains(&number),
                    "{path:?} cites section {number}"
                );
                cited += 1;
            }
        }
    });
    assert!(cited > 30, "only {cited} citations were found");
}

#[test]
fn no_document_is_cited_by_a_number() {
    each_text(|path, text| {
        let lower = text.to_lowercase();
        for (start, words) in lower.match_indices("document ") {
            let cited = leading_number(&lower[start + words.len()..]);
            assert_eq!(cited, None, "{path:?} cites a document that is not here");
        }
    });
}
