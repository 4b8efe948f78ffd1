//! What the bytes of a length stand for.

pub fn number(bytes: &[u8]) -> usize {
    bytes
        .iter()
        .fold(0, |sum, &byte| (sum << 8) | byte as usize)
}
