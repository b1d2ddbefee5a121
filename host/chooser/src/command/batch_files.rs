//! The files that a batch reads: its problems, and the table of an earlier run.

use std::collections::BTreeMap;
use std::ffi::OsStr;
use std::fs::{self, File};
use std::io::Read;
use std::path::{Path, PathBuf};

use super::{read_file, Failure};
use crate::batch_csv::{parse_rows, Row};
use crate::folder;
use frontier::limits::MAX_BYTES;

/// An earlier run's table may have so many bytes.
const MOST_TABLE: usize = 1 << 28;

/// A problem's name, its file, and how long that is.
pub struct Listed {
    pub name: String,
    pub path: PathBuf,
    pub length: u64,
}

/// All problems of a folder. A file that cannot be read is told before the run and not in it.
pub fn list_problems(named: &OsStr) -> Result<Vec<Listed>, Failure> {
    let problems = folder::list_problems(Path::new(named)).map_err(Failure::misuse)?;
    let listed = problems.into_iter().map(|problem| {
        // The bytes are read again when they are due, so that a folder may be larger than memory.
        let (_, length) = read_problem(&problem.path).map_err(Failure::misuse)?;
        Ok(Listed {
            name: problem.name,
            path: problem.path,
            length,
        })
    });
    listed.collect()
}

/// The bytes of a file, of a longer one the first 60,001, and its length.
pub fn read_problem(path: &Path) -> Result<(Vec<u8>, u64), String> {
    let read = File::open(path).and_then(|file| {
        let length = file.metadata()?.len();
        let mut bytes = Vec::new();
        file.take(MAX_BYTES as u64 + 1).read_to_end(&mut bytes)?;
        Ok((bytes, length))
    });
    read.map_err(|error| {
        format!(
            "the problem file {} cannot be read: {error}; mend it, or move it elsewhere",
            path.display()
        )
    })
}

/// The table of an earlier run.
pub fn read_earlier(file: &OsStr) -> Result<BTreeMap<String, Row>, Failure> {
    let shown = Path::new(file).display();
    let bytes = read_file(file, |_| MOST_TABLE)?;
    let text = String::from_utf8(bytes).map_err(|_| "it is no text".to_string());
    let rows = text.and_then(|text| parse_rows(&text));
    rows.map_err(|complaint| {
        Failure::file(format!(
            "{shown}: {complaint}; name a file that 'chooser batch --csv' has written"
        ))
    })
}

/// Whether two words name the same file, which is there.
pub fn name_one_file(one: &OsStr, other: &OsStr) -> bool {
    let whole = |word: &OsStr| fs::canonicalize(word).ok();
    whole(one).is_some() && whole(one) == whole(other)
}
