//! Bytes searched for one that is wanted.

/// The place of the first of these bytes from a place on, or the length where there is none.
pub fn find_byte(bytes: &[u8], from: usize, byte: u8) -> usize {
    let mut i = from;
    while i < bytes.len() && bytes[i] != byte {
        i += 1;
    }
    i
}
