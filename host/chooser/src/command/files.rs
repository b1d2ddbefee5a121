//! Files and standard streams: what is read never takes more memory than its limit, what is written
//! replaces a file only once all of it is there.

use std::ffi::OsStr;
use std::fs::{self, File, OpenOptions};
use std::io::{self, ErrorKind, Read, Write};
use std::path::{Path, PathBuf};
use std::process;

use super::{Failure, Outcome};

/// The word for standard input, or standard output, in place of a file.
pub const STANDARD_STREAM: &str = "-";

/// Reads a file, or standard input for `-`; of one that is longer than the limit that `limit` gives
/// for its first two bytes, the bytes up to the limit and one more.
pub fn read_file(word: &OsStr, limit: fn(&[u8]) -> usize) -> Result<Vec<u8>, Failure> {
    if word == STANDARD_STREAM {
        let read = read_limited(&mut io::stdin().lock(), limit);
        return read.map_err(|error| {
            let complaint = format!("standard input cannot be read: {error}; name a file instead");
            Failure::misuse(complaint)
        });
    }
    let path = Path::new(word);
    let read = File::open(path).and_then(|mut file| read_limited(&mut file, limit));
    read.map_err(|error| unreadable(path, &error))
}

/// Reads the first two bytes, and then no more than the limit for them and one byte.
fn read_limited(source: &mut impl Read, limit: fn(&[u8]) -> usize) -> io::Result<Vec<u8>> {
    let mut bytes = Vec::new();
    source.take(2).read_to_end(&mut bytes)?;
    let rest = (limit(&bytes) + 1).saturating_sub(bytes.len());
    source.take(rest as u64).read_to_end(&mut bytes)?;
    Ok(bytes)
}

/// Why a file cannot be read, and what to do.
fn unreadable(path: &Path, error: &io::Error) -> Failure {
    let shown = path.display();
    Failure::misuse(match error.kind() {
        _ if path.as_os_str().is_empty() => "the file's name is empty; name a file".into(),
        ErrorKind::NotFound => format!("there is no file {shown}; look at the name and the folder"),
        ErrorKind::PermissionDenied => {
            format!(
                "{shown} may not be read; change its permissions ('chmod u+r'), or name another"
            )
        }
        _ if path.is_dir() => format!("{shown} is a folder; name a file in it"),
        _ => format!("{shown} cannot be read: {error}; name another file"),
    })
}

/// Writes a file, or standard output for `-`, so that an error leaves the old file: all bytes go to a
/// file with another name beside it, which then takes its name.
pub fn write_file(word: &OsStr, bytes: &[u8]) -> Result<(), Failure> {
    if word == STANDARD_STREAM {
        return print_bytes(bytes);
    }
    let path = Path::new(word);
    // A link stays a link: what it leads to is replaced.
    let target = fs::canonicalize(path).unwrap_or_else(|_| path.to_owned());
    let written = match fs::metadata(&target) {
        Ok(old) if old.is_dir() => {
            let complaint = format!("{} is a folder; name a file in it", path.display());
            return Err(Failure::misuse(complaint));
        }
        // A device or a pipe cannot be replaced.
        Ok(old) if !old.is_file() => fs::write(&target, bytes),
        old => replace(&target, bytes, old.ok().map(|old| old.permissions())),
    };
    written.map_err(|error| {
        Failure::misuse(format!(
            "{} cannot be written: {error}; nothing in it has changed. Name a file in a folder \
             that may be written to",
            path.display()
        ))
    })
}

/// Writes what a run has made to the file that `-o` names, or prints it where there is none.
pub fn write_or_print(output: Option<&OsStr>, bytes: &[u8]) -> Result<Outcome, Failure> {
    write_file(output.unwrap_or(OsStr::new(STANDARD_STREAM)), bytes)?;
    Ok(Outcome::Answered)
}

/// Asks, before a run that may take long, that a file can be written after it.
pub fn check_target(word: &OsStr) -> Result<(), Failure> {
    let path = Path::new(word);
    let folder = path
        .parent()
        .filter(|folder| !folder.as_os_str().is_empty());
    if path.file_name().is_some() && !path.is_dir() && folder.is_none_or(Path::is_dir) {
        return Ok(());
    }
    Err(Failure::misuse(format!(
        "'{}' cannot be written: it is a folder, or its folder is missing; name a file in a folder",
        path.display()
    )))
}

/// Puts a file with these bytes in the place of another.
fn replace(target: &Path, bytes: &[u8], permissions: Option<fs::Permissions>) -> io::Result<()> {
    let beside = name_beside(target);
    let mut file = OpenOptions::new()
        .write(true)
        .create_new(true)
        .open(&beside)?;
    let written = file
        .write_all(bytes)
        .and_then(|()| permissions.map_or(Ok(()), |same| file.set_permissions(same)))
        .and_then(|()| file.sync_all())
        .and_then(|()| fs::rename(&beside, target));
    if written.is_err() {
        // The first error is the one to tell.
        let _ = fs::remove_file(&beside);
    }
    written
}

/// A name in the same folder that no other running process takes.
fn name_beside(target: &Path) -> PathBuf {
    let mut name = target.file_name().unwrap_or_default().to_owned();
    name.push(format!(".{}.part", process::id()));
    target.with_file_name(name)
}

/// Prints to standard output. A reader that has had enough (a pipe that has ended) is no error.
pub fn print_out(text: &str) -> Result<(), Failure> {
    print_bytes(text.as_bytes())
}

/// Prints bytes to standard output, as `print_out` does.
pub fn print_bytes(bytes: &[u8]) -> Result<(), Failure> {
    let mut output = io::stdout().lock();
    match output.write_all(bytes).and_then(|()| output.flush()) {
        Err(error) if error.kind() != ErrorKind::BrokenPipe => Err(Failure::misuse(format!(
            "standard output cannot be written: {error}; send it elsewhere"
        ))),
        _ => Ok(()),
    }
}

/// Prints to standard error. Where that is closed nobody can be told, so an error is left alone.
pub fn print_error(text: &str) {
    let _ = io::stderr().lock().write_all(text.as_bytes());
}
