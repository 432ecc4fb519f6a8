//! Words under several spellings: a capital and its small letter are one, on both sides, and no other two bytes are.

use super::ambiguous::Small;
use super::damaged_lines::heavy;
use super::{joined, lend, Case};
use crate::books::word_ranges;
use crate::random::Random;

/// Bytes that are no letters and differ as a capital and its small letter do, in one bit. What `_` would have beside it, 127, no word
/// may have.
const NO_LETTERS: [[u8; 2]; 5] = [*b"@`", *b"[{", *b"\\|", *b"]}", *b"^~"];

/// Respells words in the book, in the line or in both. No outcome changes by it, whatever the bytes are.
pub fn respell(random: &mut Random, book: &mut [u8], line: &mut [u8]) {
    let sides = random.below(5);
    if sides != 0 {
        let way = way(random);
        for range in word_ranges(book) {
            way(random, &mut book[range]);
        }
    }
    if sides != 1 {
        let way = way(random);
        for word in line.split_mut(|byte| *byte == b' ') {
            way(random, word);
        }
    }
}

/// A way to respell a word.
type Way = fn(&mut Random, &mut [u8]);

/// How the words of a side are respelt: all of them alike, or more often each in its own way.
fn way(random: &mut Random) -> Way {
    match random.chance(1, 3) {
        true => *random.pick(&WAYS),
        false => |random, word| random.pick(&WAYS)(random, word),
    }
}

/// In capitals, in small letters, with a capital first, with one letter exchanged, with letters exchanged here and there.
const WAYS: [Way; 5] = [
    |_, word| word.make_ascii_uppercase(),
    |_, word| word.make_ascii_lowercase(),
    |_, word| {
        if let Some(first) = word.first_mut() {
            first.make_ascii_uppercase();
        }
    },
    |random, word| {
        if !word.is_empty() {
            exchange(&mut word[random.below(word.len())]);
        }
    },
    |random, word| {
        for byte in word {
            if random.chance(1, 2) {
                exchange(byte);
            }
        }
    },
];

/// A capital for its small letter, or the other way round.
fn exchange(byte: &mut u8) {
    if byte.is_ascii_alphabetic() {
        *byte ^= 32;
    }
}

/// A byte of a word: mostly a letter, often the first or the last one.
fn byte(random: &mut Random) -> u8 {
    match random.below(10) {
        0..=5 => b'a' + random.below(26) as u8,
        6 | 7 => *random.pick(b"az"),
        8 => random.pick(&NO_LETTERS)[random.below(2)],
        _ => *random.pick(b"0-_!"),
    }
}

/// A word of fewer than eight bytes, of eight to sixteen, or of more.
fn word(random: &mut Random) -> Vec<u8> {
    let length = match random.below(3) {
        0 => random.between(1, 7),
        1 => random.between(8, 16),
        _ => random.between(17, 31),
    };
    (0..length).map(|_| byte(random)).collect()
}

/// The word with another byte at some place: once with each of two that are no letters and differ in one bit, or with any other.
fn neighbours(random: &mut Random, word: &[u8]) -> Vec<Vec<u8>> {
    let at = random.below(word.len());
    let bytes = match random.chance(2, 3) {
        true => random.pick(&NO_LETTERS).to_vec(),
        false => vec![byte(random)],
    };
    let with = |byte: u8| [&word[..at], &[byte], &word[at + 1..]].concat();
    bytes.into_iter().map(with).collect()
}

/// A small book of words and their neighbours, and a line over them; sometimes one of them has no entry.
fn small(random: &mut Random) -> Small {
    let mut vocabulary = vec![word(random)];
    for _ in 0..1 + random.below(2) {
        let word = random.pick(&vocabulary).clone();
        vocabulary.extend(neighbours(random, &word));
    }
    let mut small = Small::over(random, &vocabulary);
    if random.chance(1, 3) {
        let without = random.pick(&vocabulary).clone();
        small
            .entries
            .retain(|(word, _)| !word.eq_ignore_ascii_case(&without));
    }
    small
}

/// Words and their neighbours, or a word so often that the line has too many simple types, always respelt.
pub fn spellings(random: &mut Random) -> Case {
    let (records, words) = match random.chance(1, 20) {
        true => heavy(random),
        false => {
            let small = small(random);
            (small.records(random), small.words)
        }
    };
    let mut book = records.bytes();
    let mut line = joined(random, &words);
    respell(random, &mut book, &mut line);
    lend(random, "spellings", book, line)
}

#[test]
fn no_outcome_changes_by_respelling() {
    use crate::independent::{check_book, read_line};
    let outcome = |book: &[u8], line: &[u8]| {
        let mut answer = [0; super::AMPLE];
        (check_book(book), read_line(book, line, &mut answer), answer)
    };
    let mut respelt = 0;
    for number in 0..5_000 {
        let random = &mut Random::for_case(9, number);
        let case = super::any(random);
        let (mut book, mut line) = (case.book.clone(), case.line.clone());
        respell(random, &mut book, &mut line);
        let before = outcome(&case.book, &case.line);
        assert_eq!(before, outcome(&book, &line), "case {number}");
        respelt += usize::from(book != case.book && line != case.line);
    }
    assert!(respelt > 2_000);
}
