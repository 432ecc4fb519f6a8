//! A word found in a book: the thread of its entries, and how many simple types these have.
use super::book::{entry_length, wide_number};
use super::figures::limits::MAX_ENTRIES;
use super::keys::{entry_word, key_of};
use super::letters::same_word;

/// The first of a word's entries on the thread of its key, from an entry on.
fn seek(book: &[u8], entries: &[u16], alike: &[u16], word: &[u8], from: usize) -> usize {
    let mut i = from;
    while i < entries.len() {
        if same_word(entry_word(book, wide_number(entries[i])), word) {
            return i;
        }
        i = wide_number(alike[i]);
    }
    i
}

/// Threads the entries of a word, from its first one on.
fn join(book: &[u8], entries: &[u16], alike: &[u16], word: &[u8], first: usize, same: &mut [u16]) {
    let mut i = first;
    while i < entries.len() {
        let next = seek(book, entries, alike, word, wide_number(alike[i]));
        same[i] = next as u16;
        i = next;
    }
}

/// Finds a word: the number of its first entry is returned, and `same` has the thread of all. A word that was found before is threaded
/// already.
pub fn find_word(
    book: &[u8],
    entries: &[u16],
    alike: &[u16],
    word: &[u8],
    same: &mut [u16],
) -> usize {
    let head = wide_number(alike[MAX_ENTRIES + key_of(word)]);
    let first = seek(book, entries, alike, word, head);
    if first < entries.len() && same[first] == 0 {
        join(book, entries, alike, word, first, same);
    }
    first
}

/// How many simple types the entries of a thread have together.
pub fn tally(book: &[u8], entries: &[u16], same: &[u16], first: usize) -> usize {
    let mut sum = 0;
    let mut i = first;
    while i < entries.len() {
        sum += entry_length(book, wide_number(entries[i]));
        i = wide_number(same[i]);
    }
    sum
}
