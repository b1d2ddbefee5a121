//! The problems that are measured, and what is known about their answers.

use std::path::Path;

use crate::night::{read_bytes, read_night};

/// A problem to measure.
pub struct Case {
    pub family: String,
    pub name: String,
    pub bytes: Vec<u8>,
    /// What the list program prints for it, if that is known.
    pub expected: Option<String>,
}

/// Stands for an expected text that nobody knows.
const UNKNOWN: &str = "unknown\n";

/// A family's name: the first part of a problem's name that is no number.
pub fn family_of(name: &str) -> &str {
    let is_number = |part: &str| part.bytes().all(|byte| byte.is_ascii_digit());
    name.split('_')
        .find(|part| !is_number(part))
        .unwrap_or(name)
}

/// The problems of a folder, family by family.
pub fn read_cases(folder: &Path) -> Result<Vec<Case>, String> {
    let mut cases = Vec::new();
    for problem in read_night(folder)? {
        cases.push(Case {
            family: family_of(&problem.name).to_string(),
            bytes: read_bytes(&problem.path)?,
            name: problem.name,
            expected: problem.expected.filter(|text| text != UNKNOWN),
        });
    }
    cases.sort_by(|one, other| one.family.cmp(&other.family));
    Ok(cases)
}

/// The problems of a folder as one family, with the folder's name.
pub fn read_set(folder: &Path) -> Result<Vec<Case>, String> {
    let name = folder.file_name().unwrap_or_default().to_string_lossy();
    let mut cases = read_cases(folder)?;
    for case in &mut cases {
        case.family = name.to_string();
    }
    Ok(cases)
}

/// The cases of one family; there must be some.
pub fn only_family(mut cases: Vec<Case>, family: &str) -> Result<Vec<Case>, String> {
    let mut families: Vec<String> = cases.iter().map(|case| case.family.clone()).collect();
    families.sort();
    families.dedup();
    cases.retain(|case| case.family == family);
    match cases.is_empty() {
        true => Err(format!(
            "there is no family '{family}'; the families are {}",
            families.join(", ")
        )),
        false => Ok(cases),
    }
}
