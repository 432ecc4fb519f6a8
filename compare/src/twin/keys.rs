//! Keys of words, and the entries of a book threaded by them.
use super::book::{body_at, wide_byte, wide_number, word_part};
use super::figures::limits::MAX_ENTRIES;
use super::letters::small_letter;

/// How many keys there are.
const KEYS: usize = 256;

/// The places of the threads: one for each entry, with the next of its key, and behind them one for each key, with its first.
pub const PLACES: usize = MAX_ENTRIES + KEYS;

/// What a thread ends with: no entry has this number.
pub const NO_ENTRY: u16 = MAX_ENTRIES as u16;

/// The key of a word, which has a byte or more. Words that are the same have the same key.
#[inline]
pub fn key_of(word: &[u8]) -> usize {
    let first = wide_byte(small_letter(word[0]));
    let last = wide_byte(small_letter(word[word.len() - 1]));
    (word.len() + 7 * first + 37 * last) % KEYS
}

/// The word of the entry whose record stands at an offset.
#[inline]
pub fn entry_word(book: &[u8], at: usize) -> &[u8] {
    word_part(body_at(book, at))
}

/// Threads the entries of a book by their keys, from the last to the first, so that each thread has them in the book's order.
pub fn thread_entries(book: &[u8], entries: &[u16], alike: &mut [u16]) {
    for (i, &at) in entries.iter().enumerate().rev() {
        let head = MAX_ENTRIES + key_of(entry_word(book, wide_number(at)));
        alike[i] = alike[head];
        alike[head] = i as u16;
    }
}
