//! Lines with one fault or several, against good books.

use super::ambiguous::Small;
use super::papers::book_and_words;
use super::{joined, lend, Case};
use crate::books::Records;
use crate::random::Random;

/// A book with a word of many simple types, and that word so often that the
/// line has too many; seldom once less often, so that it has not.
pub fn heavy(random: &mut Random) -> (Records, Vec<Vec<u8>>) {
    let mut small = Small::new(random);
    let word = b"heavy".to_vec();
    let target = small.types.any_target(random);
    let length = 8 + random.below(5);
    let entries = 3 + random.below(4);
    for _ in 0..entries {
        let mut simple_types = [(target, 0), (target, -1)].repeat(6);
        simple_types.truncate(length);
        small.entries.push((word.clone(), simple_types));
    }
    let most = 512 / (length * entries);
    let places = most + usize::from(random.chance(9, 10));
    (small.records(random), vec![word; places])
}

fn good(random: &mut Random) -> (Records, Vec<Vec<u8>>) {
    if random.chance(1, 4) {
        return book_and_words(random);
    }
    let small = Small::new(random);
    (small.records(random), small.words)
}

/// Between two words, or at an end.
fn insert(random: &mut Random, words: &mut Vec<Vec<u8>>, word: Vec<u8>) {
    let at = random.below(words.len() + 1);
    words.insert(at, word);
}

/// A change to the list of words.
pub fn damage_words(random: &mut Random, words: &mut Vec<Vec<u8>>) {
    match random.below(5) {
        0 => {
            let length = 31 + random.below(10);
            insert(random, words, vec![b'x'; length]);
        }
        1 => insert(random, words, b"unknown".to_vec()),
        2 => insert(random, words, b"aa".to_vec()),
        3 if !words.is_empty() => {
            let word = random.pick(words).clone();
            let places = 20 + random.below(8);
            words.resize(places, word);
        }
        _ => insert(random, words, vec![]),
    }
}

/// A change to the bytes.
pub fn damage_bytes(random: &mut Random, line: &mut Vec<u8>) {
    let byte = match random.below(4) {
        0 => random.below(256) as u8,
        1 => *random.pick(&[0, 9, 10, 13, 31, 127, 128, 255]),
        2 => b' ',
        _ => *random.pick(&[33, 126, b'a', b'b']),
    };
    let at = random.below(line.len() + 1);
    if random.chance(1, 2) && at < line.len() {
        line[at] = byte;
    } else {
        line.insert(at, byte);
    }
}

pub fn damaged_lines(random: &mut Random) -> Case {
    let (records, mut words) = match random.chance(1, 10) {
        true => heavy(random),
        false => good(random),
    };
    for _ in 0..random.below(3) {
        damage_words(random, &mut words);
    }
    let mut line = joined(random, &words);
    if random.chance(1, 2) {
        for _ in 0..1 + random.below(3) {
            damage_bytes(random, &mut line);
        }
    }
    lend(random, "damaged line", records.bytes(), line)
}
