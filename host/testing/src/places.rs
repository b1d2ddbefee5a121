//! Where things stand in the repository.

use std::path::{Path, PathBuf};

/// The repository's root.
pub fn root() -> PathBuf {
    let package = Path::new(env!("CARGO_MANIFEST_DIR"));
    let root = package.ancestors().nth(2);
    root.expect("host/testing has two folders above it").into()
}

/// The folder of stored problems with this name.
pub fn data(name: &str) -> PathBuf {
    root().join("host/data").join(name)
}
