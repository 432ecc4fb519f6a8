//! Words compared where they stand, capitals as small letters. Most words differ in more than case, and eight bytes as one number tell so;
//! what may differ in case alone is compared in small letters, eight bytes at a time too.
use super::compare::{eight_bytes, first_other};

/// The bit by which a capital and its small letter differ, and the same in each of eight bytes.
const CASE_BIT: u8 = 0x20;
const CASE_BITS: u64 = 0x2020_2020_2020_2020;

/// In each of eight bytes: the bits below the top one; what raises A to the top bit; what raises to it the byte that follows Z; the top bit.
const SEVEN_BITS: u64 = 0x7f7f_7f7f_7f7f_7f7f;
const TO_A: u64 = 0x3f3f_3f3f_3f3f_3f3f;
const PAST_Z: u64 = 0x2525_2525_2525_2525;
const TOP_BITS: u64 = 0x8080_8080_8080_8080;

/// Whether a and b are the same word.
#[inline]
pub fn same_word(a: &[u8], b: &[u8]) -> bool {
    if a.len() != b.len() {
        return false;
    }
    if a.len() < 8 {
        return same_letters(a, b);
    }
    same_long(a, b)
}

/// The same for two words of one length, at least eight. The same letters are equal but for bits of case.
#[inline]
fn same_long(a: &[u8], b: &[u8]) -> bool {
    let at = first_other(a, b);
    let x = eight_bytes(a, at);
    let y = eight_bytes(b, at);
    if x == y {
        return true;
    }
    if x | CASE_BITS != y | CASE_BITS {
        return false;
    }
    same_eights(a, b, at)
}

/// Whether the letters from a place on are the same, eight at a time, and at the end the last eight.
fn same_eights(a: &[u8], b: &[u8], from: usize) -> bool {
    let same = |i| small_eight(eight_bytes(a, i)) == small_eight(eight_bytes(b, i));
    let last = a.len() - 8;
    (from..last).step_by(8).all(same) && same(last)
}

/// Eight bytes with capitals made small. Each byte's low seven bits are raised twice: the first sum has the top bit from A on, the second
/// past Z. A capital has the one and not the other, and no top bit of its own; a quarter of that bit is 32.
#[inline]
fn small_eight(bytes: u64) -> u64 {
    let seven = bytes & SEVEN_BITS;
    let like = ((seven + TO_A) ^ (seven + PAST_Z)) & TOP_BITS;
    bytes + (like & !bytes) / 4
}

/// Whether two words of one length have the same letters, one by one.
#[inline]
fn same_letters(a: &[u8], b: &[u8]) -> bool {
    a.iter().zip(b).all(|(&x, &y)| same_letter(x, y))
}

/// Whether two bytes are the same letter, or the same sign.
#[inline]
fn same_letter(x: u8, y: u8) -> bool {
    x == y || (x | CASE_BIT == y | CASE_BIT && small_letter(x) == small_letter(y))
}

/// A byte with a capital made small.
#[inline]
pub fn small_letter(byte: u8) -> u8 {
    match byte {
        b'A'..=b'Z' => byte + CASE_BIT,
        _ => byte,
    }
}
