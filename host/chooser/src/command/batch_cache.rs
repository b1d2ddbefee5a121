//! The store of a batch with a cache, and the file in which it is kept between runs.

use std::ffi::{OsStr, OsString};
use std::fs;
use std::io::ErrorKind;
use std::path::Path;
use std::sync::Mutex;

use super::{print_error, read_file, write_file, Failure};
use crate::batch_worker::store_line;
use crate::cache_file::{read_cache, write_cache, FILE_BYTES, STORE_BYTES};
use frontier::version;

/// The store of the cached call, and the file in which it is kept between runs. A worker has a store of its own, and
/// this one follows it answer by answer, so that a worker that is ended takes nothing with it.
pub struct Cache {
    file: OsString,
    store: Mutex<Vec<u8>>,
}

impl Cache {
    /// The store in a file; a cleared one where there is none, and where the file is of no use, which is told.
    pub fn read(file: &OsStr) -> Result<Cache, Failure> {
        let cleared = || vec![0; STORE_BYTES];
        let is_new = fs::metadata(file).is_err_and(|error| error.kind() == ErrorKind::NotFound);
        let store = match is_new {
            true => cleared(),
            false => {
                let bytes = read_file(file, |_| FILE_BYTES)?;
                read_cache(version(), &bytes).unwrap_or_else(|complaint| {
                    let shown = Path::new(file).display();
                    print_error(&format!(
                        "chooser: the cache {shown} is not used: {complaint}; the run begins with an \
                         empty one, which replaces {shown} at the end\n"
                    ));
                    cleared()
                })
            }
        };
        Ok(Cache {
            file: file.into(),
            store: Mutex::new(store),
        })
    }

    /// The line that hands the store to a worker.
    pub fn line(&self) -> String {
        store_line(&self.store.lock().expect("no thread has panicked"))
    }

    /// Takes over what a worker has changed in its store: all of it, or nothing.
    pub fn take_changes(&self, changes: &[(usize, Vec<u8>)]) -> Result<(), String> {
        let mut store = self.store.lock().expect("no thread has panicked");
        let mut changed = store.clone();
        for (place, bytes) in changes {
            let part = changed.get_mut(*place..);
            let part = part.and_then(|rest| rest.get_mut(..bytes.len()));
            let part = part.ok_or("a worker has changed what is outside of the cache")?;
            part.copy_from_slice(bytes);
        }
        *store = changed;
        Ok(())
    }

    /// Writes the file for later runs.
    pub fn write(&self) -> Result<(), Failure> {
        let store = self.store.lock().expect("no thread has panicked");
        write_file(&self.file, &write_cache(version(), &store))
    }
}
