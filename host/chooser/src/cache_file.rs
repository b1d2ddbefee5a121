//! The file in which a batch keeps its store between runs: a header, and the bytes of the store.

use crate::digest::fnv_1a;
use frontier::limits::{MAX_SLOTS, SLOT_BYTES};

/// What the file begins with. The line feed shows when a program has changed line ends.
pub const MAGIC: [u8; 8] = *b"FRCACHE\n";

/// The bytes before the store: the magic word, the version and the slot size (4 bytes each), the digest (8).
const HEADER: usize = MAGIC.len() + 4 + 4 + 8;

/// The store of a batch has as many slots as there may be.
pub const STORE_BYTES: usize = MAX_SLOTS * SLOT_BYTES;

/// So many bytes the file has.
pub const FILE_BYTES: usize = HEADER + STORE_BYTES;

/// The bytes of the file for a store, with the version of the library that has written it.
pub fn write_cache(version: u32, store: &[u8]) -> Vec<u8> {
    let mut bytes = MAGIC.to_vec();
    bytes.extend(version.to_le_bytes());
    bytes.extend((SLOT_BYTES as u32).to_le_bytes());
    bytes.extend(fnv_1a(store.iter().copied()).to_le_bytes());
    bytes.extend(store);
    bytes
}

/// The store in the bytes of a file, or why they are of no use with this version of the library.
pub fn read_cache(version: u32, bytes: &[u8]) -> Result<Vec<u8>, String> {
    let Some((magic, rest)) = bytes.split_first_chunk() else {
        return Err(match bytes {
            [] => "it is empty".into(),
            _ => "it is no cache of 'chooser batch'".into(),
        });
    };
    if *magic != MAGIC {
        return Err("it is no cache of 'chooser batch'".into());
    }
    let (found, rest) = take_number(rest)?;
    if found != version {
        let [found, version] = [found, version].map(dotted);
        return Err(format!("it is of version {found}, and this is {version}"));
    }
    let (size, rest) = take_number(rest)?;
    if size as usize != SLOT_BYTES {
        return Err(format!(
            "its slots have {size} bytes instead of {SLOT_BYTES}"
        ));
    }
    let (digest, store) = rest.split_first_chunk().ok_or_else(cut_short)?;
    match store.len() {
        length if length < STORE_BYTES => return Err(cut_short()),
        length if length > STORE_BYTES => {
            return Err(format!(
                "it is damaged: it has more than {FILE_BYTES} bytes"
            ))
        }
        _ => {}
    }
    let (found, due) = (fnv_1a(store.iter().copied()), u64::from_le_bytes(*digest));
    match found == due {
        true => Ok(store.to_vec()),
        false => Err(format!(
            "it is damaged: the digest of its bytes is {found:016x} instead of {due:016x}"
        )),
    }
}

/// The next number of the header.
fn take_number(bytes: &[u8]) -> Result<(u32, &[u8]), String> {
    let (number, rest) = bytes.split_first_chunk().ok_or_else(cut_short)?;
    Ok((u32::from_le_bytes(*number), rest))
}

fn cut_short() -> String {
    format!("it is damaged: it ends before byte {FILE_BYTES}")
}

/// A version as people write it.
fn dotted(version: u32) -> String {
    let (major, minor, patch) = (
        version / 1_000_000,
        version / 1_000 % 1_000,
        version % 1_000,
    );
    format!("{major}.{minor}.{patch}")
}
