//! A folder of problems: files `NAME.bin`, in the order of their names.

use std::fs;
use std::path::{Path, PathBuf};

/// The extension of a problem's file.
pub const EXTENSION: &str = "bin";

/// A problem's file, and its name without the extension.
#[derive(Clone, Debug, PartialEq, Eq)]
pub struct ProblemFile {
    pub name: String,
    pub path: PathBuf,
}

/// All problems of a folder in the order of their names; at least one.
pub fn list_problems(folder: &Path) -> Result<Vec<ProblemFile>, String> {
    let named = |path: PathBuf| {
        Ok(ProblemFile {
            name: stem_of(&path)?,
            path,
        })
    };
    let files = problem_files(&opened(folder)?)?;
    files.into_iter().map(named).collect()
}

/// The folder by its whole name.
pub fn opened(folder: &Path) -> Result<PathBuf, String> {
    fs::canonicalize(folder).map_err(|error| {
        format!(
            "the folder {} cannot be opened ({error}); name a folder of problem files",
            folder.display()
        )
    })
}

/// The problem files of a folder, sorted; at least one.
fn problem_files(folder: &Path) -> Result<Vec<PathBuf>, String> {
    let unreadable = |error| format!("the folder {} cannot be read: {error}", folder.display());
    let mut files = Vec::new();
    for entry in fs::read_dir(folder).map_err(unreadable)? {
        let path = entry.map_err(unreadable)?.path();
        if path.extension().is_some_and(|end| end == EXTENSION) {
            files.push(path);
        }
    }
    if files.is_empty() {
        return Err(format!(
            "the folder {} has no problem file (NAME.{EXTENSION}); name a folder of such files",
            folder.display()
        ));
    }
    files.sort();
    Ok(files)
}

/// A file's name without its extension.
fn stem_of(path: &Path) -> Result<String, String> {
    let stem = path.file_stem().and_then(|stem| stem.to_str());
    let unnamed = || format!("the name of {} is no text; rename the file", path.display());
    stem.map(String::from).ok_or_else(unnamed)
}
