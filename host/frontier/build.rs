//! Links the proved chooser's static library, and says how to make it where it is missing.

use std::env;
use std::path::Path;
use std::process::exit;

/// Where `packaging/build` puts the archive, from the repository's root.
const FOLDER: &str = "target/staticlib";
const ARCHIVE: &str = "libfrontier.a";

fn main() {
    let package = env::var("CARGO_MANIFEST_DIR").expect("cargo sets CARGO_MANIFEST_DIR");
    let root = Path::new(&package)
        .ancestors()
        .nth(2)
        .expect("host/frontier/ has two folders above it");
    let folder = root.join(FOLDER);
    println!("cargo:rerun-if-changed={}", folder.join(ARCHIVE).display());
    // Asked here, because the linker would say neither why the archive is missing nor what to do.
    if !folder.join(ARCHIVE).is_file() {
        eprintln!(
            "{FOLDER}/{ARCHIVE} is missing: the proved chooser, which this package links.\n\
             Make it with 'packaging/build library' in the repository's root, {}",
            root.display()
        );
        exit(1);
    }
    println!("cargo:rustc-link-search=native={}", folder.display());
    println!("cargo:rustc-link-lib=static=frontier");
}
