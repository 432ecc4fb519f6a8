//! Sets of small numbers in one 64-bit word: bit q is 1 where q is a member.

/// Whether q is a member. No number from 64 on is.
#[inline]
pub fn has(word: u64, q: u8) -> bool {
    if 64 <= q {
        return false;
    }
    (word >> q) % 2 == 1
}

/// The set with q put in.
#[inline]
pub fn with(word: u64, q: u8) -> u64 {
    word | (1 << q)
}

/// The members of either set.
#[inline]
pub fn union(a: u64, b: u64) -> u64 {
    a | b
}

/// The members of both sets.
#[inline]
pub fn both(a: u64, b: u64) -> u64 {
    a & b
}

/// The members of a that are not members of b.
#[inline]
pub fn minus(a: u64, b: u64) -> u64 {
    a & !b
}

/// The members from q on, lowered by q.
#[inline]
pub fn above(word: u64, q: u8) -> u64 {
    word >> q
}

/// The lowest member of a set that has one.
#[inline]
pub fn lowest(word: u64) -> u8 {
    word.trailing_zeros() as u8
}

/// How many members the set has.
#[inline]
pub fn count(word: u64) -> u64 {
    word.count_ones() as u64
}
