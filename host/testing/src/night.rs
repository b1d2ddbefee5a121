//! The night's problems: a folder of problem files, and beside it the text that the list program
//! prints for each of them.

use std::collections::BTreeMap;
use std::fs;
use std::path::{Path, PathBuf};

use crate::owned::list_text_by;
use chooser::folder::{list_problems, opened, ProblemFile, EXTENSION};
use frontier::lent;
use frontier::lent::Buffers;

/// One of the night's problems: its file's name without the extension, the file, and the text that
/// is expected for it, if any.
#[derive(Clone, Debug, PartialEq, Eq)]
pub struct NightProblem {
    pub name: String,
    pub path: PathBuf,
    pub expected: Option<String>,
}

/// Starts a line of the expected texts with the name of a problem.
const NAME_MARK: &str = "# ";

/// All problems of a folder in the order of their names. The expected texts of a folder `F` are in
/// the file `F.expected` beside it; where there is none, nothing is expected.
pub fn read_night(folder: &Path) -> Result<Vec<NightProblem>, String> {
    let folder = opened(folder)?;
    let beside = expected_beside(&folder);
    let mut expected = match beside.exists() {
        true => read_expected(&beside)?,
        false => BTreeMap::new(),
    };
    let with_text = |ProblemFile { name, path }| NightProblem {
        expected: expected.remove(&name),
        name,
        path,
    };
    let problems = list_problems(&folder)?.into_iter().map(with_text).collect();
    match expected.keys().next() {
        None => Ok(problems),
        Some(name) => Err(format!(
            "{} expects a text for '{name}', but {} has no file {name}.{EXTENSION}; add the file, \
             or take the text out",
            beside.display(),
            folder.display()
        )),
    }
}

/// The file with the expected texts of a folder.
fn expected_beside(folder: &Path) -> PathBuf {
    let mut path = folder.as_os_str().to_owned();
    path.push(".expected");
    path.into()
}

/// The expected texts by the names of their problems.
fn read_expected(path: &Path) -> Result<BTreeMap<String, String>, String> {
    let text = fs::read_to_string(path)
        .map_err(|error| format!("{} cannot be read as text: {error}", path.display()))?;
    parse_expected(&text).map_err(|complaint| format!("{}: {complaint}", path.display()))
}

/// The expected texts: for each problem a line `# NAME`, and then what is printed for it.
pub fn parse_expected(text: &str) -> Result<BTreeMap<String, String>, String> {
    let mut texts: BTreeMap<String, String> = BTreeMap::new();
    let mut name = None;
    for (number, line) in (1..).zip(text.lines()) {
        if let Some(next) = line.strip_prefix(NAME_MARK) {
            if texts.insert(next.into(), String::new()).is_some() {
                return Err(format!("line {number}: '{next}' is named a second time"));
            }
            name = Some(next);
        } else {
            let named = name.and_then(|name| texts.get_mut(name));
            let text = named.ok_or(format!(
                "line {number}: a line '# NAME' is due before '{line}'"
            ))?;
            text.push_str(line);
            text.push('\n');
        }
    }
    match texts.iter().find(|(_, text)| text.is_empty()) {
        None => Ok(texts),
        Some((name, _)) => Err(format!("no line follows '# {name}'")),
    }
}

/// The bytes of a problem's file.
pub fn read_bytes(path: &Path) -> Result<Vec<u8>, String> {
    fs::read(path).map_err(|error| {
        format!(
            "the problem file {} cannot be read: {error}",
            path.display()
        )
    })
}

/// What the list program prints for these bytes, by the static library's plain call. What the
/// buffers hold is left for the next problem.
pub fn chosen_text(lent: &mut Buffers, bytes: &[u8]) -> String {
    list_text_by(lent::solve_problem, lent, bytes)
}

/// The first line in which a text differs from the expected one, which it does.
pub fn difference(text: &str, expected: &str) -> String {
    let pairs = text.lines().zip(expected.lines());
    let equal = pairs.take_while(|(line, due)| line == due).count();
    let [line, due] = [text, expected].map(|text| text.lines().nth(equal).unwrap_or("nothing"));
    format!("line {} DIFFERS: '{line}' instead of '{due}'", equal + 1)
}
