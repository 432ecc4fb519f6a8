//! The tests whether two simple types could contract and whether one may be left over, over numbers as the layers above hold them: one
//! for a simple type, a row of 64 bits for each basic type.
use super::bits;

/// What is added to an exponent to hold it in a byte. It is even, so that parity is kept.
pub const EXPONENT_BIAS: u8 = 8;

/// Whether p stands at or below q by the rows: bit q of row p. A row or a bit that is not there says no.
#[inline]
pub fn stands_below(rows: &[u64], p: u8, q: u8) -> bool {
    match rows.get(p as usize) {
        Some(&row) => bits::has(row, q),
        None => false,
    }
}

/// A basic type and an exponent raised by the bias, held in one number.
#[inline]
pub fn hold(base: u8, raised: u8) -> u16 {
    raised as u16 * 256 + base as u16
}

/// Whether the simple types that x and y hold, in this order, could contract.
#[inline]
pub fn may_contract(rows: &[u64], x: u16, y: u16) -> bool {
    let earlier = x / 256;
    if y / 256 != earlier + 1 {
        return false;
    }
    let a = (x % 256) as u8;
    let b = (y % 256) as u8;
    if earlier.is_multiple_of(2) {
        stands_below(rows, a, b)
    } else {
        stands_below(rows, b, a)
    }
}

/// Whether the simple type that x holds is plain and stands at or below the basic type s.
#[inline]
pub fn may_remain(rows: &[u64], x: u16, s: u8) -> bool {
    if x / 256 != EXPONENT_BIAS as u16 {
        return false;
    }
    stands_below(rows, (x % 256) as u8, s)
}
