//! The books of documents 01 and 000, often with more targets, and lines over their words.

use super::{joined, lend, targets, Case};
use crate::books::{example_4_3, example_4_4, example_4_5, first_book, second_book, Records};
use crate::random::Random;

const TRY_WORDS: [&str; 9] = [
    "fetch", "bed4", "ward7", "urgently", "admit", "site", "go", "please", "log",
];

/// Words of the two books to try, put together so that most lines are read.
fn order_words(random: &mut Random, log: bool) -> Vec<&'static str> {
    let mut words = vec![];
    if log {
        words.push("log");
    }
    words.extend(vec!["please"; random.below(3)]);
    words.extend(match random.below(6) {
        0 => vec!["fetch", "bed4"],
        1 => vec!["fetch", "bed4", "ward7"],
        2 => vec!["fetch", "bed4", "site"],
        3 => vec!["admit", "ward7"],
        4 => vec!["admit", "site"],
        _ => vec!["go"],
    });
    words.extend(vec!["urgently"; random.below(3)]);
    words
}

/// The sentence of an example, or any words of it.
fn sentence(random: &mut Random, text: &'static str) -> Vec<&'static str> {
    let words: Vec<&str> = text.split(' ').collect();
    match random.chance(1, 2) {
        true => words,
        false => any_words(random, &words),
    }
}

fn any_words(random: &mut Random, words: &[&'static str]) -> Vec<&'static str> {
    let places = random.below(8);
    (0..places).map(|_| *random.pick(words)).collect()
}

/// Sometimes one word is left out, doubled or exchanged with its neighbour.
fn altered(random: &mut Random, mut words: Vec<&'static str>) -> Vec<&'static str> {
    if words.is_empty() || random.chance(2, 3) {
        return words;
    }
    let at = random.below(words.len());
    match random.below(3) {
        0 => drop(words.remove(at)),
        1 => words.insert(at, words[at]),
        _ => words.swap(at, at / 2),
    }
    words
}

/// A book of the papers, often with more targets, and words for a line.
pub fn book_and_words(random: &mut Random) -> (Records, Vec<Vec<u8>>) {
    let (mut book, words) = match random.below(10) {
        0..=2 => (first_book(), order_words(random, false)),
        3..=5 => (second_book(), order_words(random, true)),
        6 => (second_book(), any_words(random, &TRY_WORDS)),
        7 => (example_4_3(), sentence(random, "I will meet him")),
        8 => (example_4_4(), sentence(random, "did he give books to her")),
        _ => (
            example_4_5(),
            sentence(random, "Kim mailed the letter to Sandy"),
        ),
    };
    targets::add(random, &mut book);
    let words = altered(random, words);
    let words = words.iter().map(|word| word.as_bytes().to_vec()).collect();
    (book, words)
}

pub fn papers(random: &mut Random) -> Case {
    let (book, words) = book_and_words(random);
    let line = joined(random, &words);
    lend(random, "papers", book.bytes(), line)
}
