//! The digest of an answer's bytes: FNV-1a with 64 bits.

/// What the digest of no byte is.
const START: u64 = 0xcbf2_9ce4_8422_2325;

/// Each byte is multiplied in by this.
const PRIME: u64 = 0x0000_0100_0000_01b3;

/// The digest of some bytes. It tells answers apart that differ by accident, not by intent.
pub fn fnv_1a(bytes: impl IntoIterator<Item = u8>) -> u64 {
    let step = |digest: u64, byte: u8| (digest ^ u64::from(byte)).wrapping_mul(PRIME);
    bytes.into_iter().fold(START, step)
}

/// The digest of a list in flat buffers: the costs, little-endian, and then the choices.
pub fn list_digest(costs: &[u32], choices: &[u8]) -> u64 {
    let costs = costs.iter().flat_map(|cost| cost.to_le_bytes());
    fnv_1a(costs.chain(choices.iter().copied()))
}

#[cfg(test)]
mod tests {
    use super::fnv_1a;

    #[test]
    fn published_values() {
        assert_eq!(fnv_1a([]), 0xcbf2_9ce4_8422_2325);
        assert_eq!(fnv_1a(*b"a"), 0xaf63_dc4c_8601_ec8c);
        assert_eq!(fnv_1a(*b"foobar"), 0x8594_4171_f739_67e8);
    }
}
