//! Lines against full books: 1,024 entries of one word, of words alike or of words with one key, hard lines in a book at its bounds, and
//! the dearest line, with eight targets and with one.
use super::dearest::{dearest, dearest_of_one_target};
use super::hard::{self, Bases, Exponents};
use super::Sample;
use crate::books::Records;

/// A word so many times.
fn repeated(word: &str, count: usize) -> Vec<u8> {
    vec![word; count].join(" ").into_bytes()
}

/// A book of 1,024 entries of one word, all empty but perhaps the last, which has the target's type.
fn one_word_book(word: &str, last_plain: bool) -> Vec<u8> {
    let mut book = Records::default();
    book.basic_type(b"p");
    book.target(0);
    for _ in 0..1023 {
        book.entry(word.as_bytes(), &[]);
    }
    let plain = [(0, 0)];
    book.entry(word.as_bytes(), if last_plain { &plain } else { &[] });
    book.bytes()
}

/// A book of 1,024 words of 31 bytes that differ in their last two only, each with the target's type or an empty one.
fn alike_book() -> (Vec<u8>, Vec<u8>) {
    let mut book = Records::default();
    book.basic_type(b"p");
    book.target(0);
    let mut line = Vec::new();
    for k in 0..1024 {
        let digit = |value: usize| (b'A' + value as u8) as char;
        let word = format!("{}{}{}", "x".repeat(29), digit(k / 32), digit(k % 32));
        let plain = [(0, 0)];
        book.entry(word.as_bytes(), if k == 1023 { &plain } else { &[] });
        if k >= 1000 {
            line.push(word);
        }
    }
    (book.bytes(), line.join(" ").into_bytes())
}

/// A book of 1,024 entries of so many words of 31 bytes, in turns, and a line of the last 24. The words differ in two bytes before the
/// last, and so have one key. The last entry has the target's type, the others are empty.
fn one_key(words: usize) -> Sample {
    let digit = |value: usize| (b'A' + value as u8) as char;
    let word = |k: usize| format!("{}{}{}x", "x".repeat(28), digit(k / 32), digit(k % 32));
    let mut book = Records::default();
    book.basic_type(b"p");
    book.target(0);
    for k in 0..1023 {
        book.entry(word(k % words).as_bytes(), &[]);
    }
    book.entry(word(1023 % words).as_bytes(), &[(0, 0)]);
    let line: Vec<String> = (words - 24..words).map(word).collect();
    Sample {
        name: format!("{words} words of one key, 31 bytes, 24 words, reads"),
        book: book.bytes(),
        line: line.join(" ").into_bytes(),
    }
}

/// A hard line of words of 31 bytes, in a book filled with 64 basic types, 1,024 entries of words alike and as many pairs as there is
/// room for.
fn crowded(kind: &str, words: &[Vec<Exponents>]) -> Sample {
    let word = |k: usize| format!("{}{k:03}", "x".repeat(28));
    let (mut book, line) = hard::records(words, Bases::Cycle(64), word);
    let entries: usize = words.iter().map(Vec::len).sum();
    for k in entries..1024 {
        book.entry(word(100 + k % 900).as_bytes(), &[]);
    }
    let left = 65_535 - book.bytes().len();
    for k in 0..left / 6 {
        book.pair((k % 64) as u8, (k / 64 % 64) as u8);
    }
    Sample {
        name: format!("{kind}, book of {} bytes, reads", book.bytes().len()),
        book: book.bytes(),
        line,
    }
}

/// Lines against books of 1,024 entries.
pub fn full() -> Vec<Sample> {
    let mut samples = Vec::new();
    for (kind, word) in [("1", "a".to_string()), ("31", "a".repeat(31))] {
        let empty = one_word_book(&word, false);
        let plain = one_word_book(&word, true);
        samples.push(Sample {
            name: format!("1024 empty, {kind} byte, 24 words, none"),
            book: empty,
            line: repeated(&word, 24),
        });
        for count in [23, 24] {
            samples.push(Sample {
                name: format!("1023 empty, {kind} byte, {count} words, reads"),
                book: plain.clone(),
                line: repeated(&word, count),
            });
        }
    }
    for (kind, words) in [
        ("woven", hard::woven_entries(24)),
        ("a late entry fits", hard::late_entries(true)),
    ] {
        samples.push(crowded(kind, &words));
    }
    samples.push(dearest());
    samples.push(dearest_of_one_target());
    let (book, line) = alike_book();
    let capitals = line.to_ascii_uppercase();
    for (kind, line) in [("24 words", line), ("24 words in capitals", capitals)] {
        samples.push(Sample {
            name: format!("1024 words alike, 31 bytes, {kind}, reads"),
            book: book.clone(),
            line,
        });
    }
    samples.extend([32, 1024].map(one_key));
    samples
}
