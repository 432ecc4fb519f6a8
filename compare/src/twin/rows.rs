//! Rows of nodes or places: sets of numbers below 576 in nine words of 64 bits. A row under construction is a `Row`; finished ones
//! stand one behind another in a flat slice, row u from word 9 u on.
use super::bits;
use super::figures::limits::{ROW_BITS, ROW_WORDS};

/// One row.
#[derive(Clone, Copy)]
pub struct Row {
    pub words: [u64; ROW_WORDS],
}

/// The words of row u.
#[inline]
pub fn words_of(rows: &[u64], u: usize) -> &[u64] {
    let at = ROW_WORDS * u;
    &rows[at..at + ROW_WORDS]
}

/// The row without members.
#[inline]
pub fn empty() -> Row {
    Row {
        words: [0; ROW_WORDS],
    }
}

/// Puts v into a row where it stands: a row that is handed on for each member is copied each time.
#[inline]
pub fn put_in(words: &mut [u64; ROW_WORDS], v: usize) {
    words[v / 64] = bits::with(words[v / 64], (v % 64) as u8);
}

/// The row with v put in.
#[inline]
pub fn put(mut row: Row, v: usize) -> Row {
    put_in(&mut row.words, v);
    row
}

/// The members of the row and those of row u.
#[inline]
pub fn unite(mut row: Row, rows: &[u64], u: usize) -> Row {
    for (word, &other) in row.words.iter_mut().zip(words_of(rows, u)) {
        *word = bits::union(*word, other);
    }
    row
}

/// Puts the row in the place of row u.
#[inline]
pub fn store(rows: &mut [u64], u: usize, row: Row) {
    let at = ROW_WORDS * u;
    rows[at..at + ROW_WORDS].copy_from_slice(&row.words);
}

/// Whether v is a member of row u.
#[inline]
pub fn member(rows: &[u64], u: usize, v: usize) -> bool {
    if ROW_BITS <= v {
        return false;
    }
    bits::has(rows[ROW_WORDS * u + v / 64], (v % 64) as u8)
}

/// The smallest member of row u that is not below `from`, or `ROW_BITS` where there is none.
#[inline]
pub fn next_member(rows: &[u64], u: usize, from: usize) -> usize {
    let mut at = from;
    while at < ROW_BITS {
        let word = bits::above(rows[ROW_WORDS * u + at / 64], (at % 64) as u8);
        if word != 0 {
            return at + bits::lowest(word) as usize;
        }
        at = (at / 64 + 1) * 64;
    }
    ROW_BITS
}

/// Puts v into a row where it stands, where the flag says so.
#[inline]
pub fn put_where(words: &mut [u64; ROW_WORDS], v: usize, flag: bool) {
    if flag {
        put_in(words, v);
    }
}

/// The members of the row and those of each row whose number is in the set.
#[inline]
pub fn unite_all(mut row: Row, rows: &[u64], set: Row) -> Row {
    let mut u = next_member(&set.words, 0, 0);
    while u < ROW_BITS {
        row = unite(row, rows, u);
        u = next_member(&set.words, 0, u + 1);
    }
    row
}
