//! Bytes compared eight at a time, each eight of them as one number. Fewer than eight are compared one by one.

/// Whether a and b hold the same bytes.
#[inline]
pub fn same(a: &[u8], b: &[u8]) -> bool {
    if a.len() != b.len() {
        return false;
    }
    if a.len() < 8 {
        return a.iter().zip(b).all(|(x, y)| x == y);
    }
    same_long(a, b)
}

/// The same for two lists of one length, at least eight: the first eight that are not equal tell, or the last eight.
#[inline]
fn same_long(a: &[u8], b: &[u8]) -> bool {
    let at = first_other(a, b);
    eight_bytes(a, at) == eight_bytes(b, at)
}

/// Where the first eight bytes stand that are not equal, of those one behind another and the last eight; the place of the last eight if
/// none of those before is.
#[inline]
pub fn first_other(a: &[u8], b: &[u8]) -> usize {
    let last = a.len() - 8;
    (0..last)
        .step_by(8)
        .find(|&i| eight_bytes(a, i) != eight_bytes(b, i))
        .unwrap_or(last)
}

/// Eight bytes as one little-endian number.
#[inline]
pub fn eight_bytes(bytes: &[u8], at: usize) -> u64 {
    let eight = bytes[at..at + 8].try_into().expect("eight bytes");
    u64::from_le_bytes(eight)
}
