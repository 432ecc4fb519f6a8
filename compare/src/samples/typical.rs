//! A typical book of 1,000 entries, and lines of 6 to 12 words of which some read.
use super::{BatchSample, Sample, Simple};
use crate::books::Records;
use crate::random::Random;

const NAMES: [&str; 20] = [
    "s", "s1", "q", "o", "n", "n1", "n2", "np", "np1", "np2", "i", "j", "p", "a", "d", "t", "l",
    "c", "m", "x",
];
const PAIRS: [(u8, u8); 9] = [
    (S1, S),
    (Q, S),
    (O, S),
    (N1, N),
    (N2, N),
    (NP1, NP),
    (NP2, NP),
    (N2, NP),
    (I, J),
];
const S: u8 = 0;
const S1: u8 = 1;
const Q: u8 = 2;
const O: u8 = 3;
const N: u8 = 4;
const N1: u8 = 5;
const N2: u8 = 6;
const NP: u8 = 7;
const NP1: u8 = 8;
const NP2: u8 = 9;
const I: u8 = 10;
const J: u8 = 11;

/// What a word is used as.
#[derive(Clone, Copy, PartialEq)]
pub enum Class {
    Noun,
    Determiner,
    Adjective,
    Name,
    Intransitive,
    Transitive,
    Ditransitive,
    Auxiliary,
    Infinitive,
    InfinitiveWithObject,
    Imperative,
    Adverb,
    Preposition,
    NounPreposition,
    Conjunction,
}

use Class::*;

const CLASSES: [Class; 15] = [
    Noun,
    Determiner,
    Adjective,
    Name,
    Intransitive,
    Transitive,
    Ditransitive,
    Auxiliary,
    Infinitive,
    InfinitiveWithObject,
    Imperative,
    Adverb,
    Preposition,
    NounPreposition,
    Conjunction,
];

/// Classes whose types end with a left adjoint.
const OPEN: [Class; 6] = [
    Determiner,
    Adjective,
    Transitive,
    Imperative,
    Preposition,
    Conjunction,
];

/// The type of a class; nouns and names come in two kinds.
fn class_type(class: Class, second: bool) -> Vec<Simple> {
    match class {
        Noun => vec![(if second { N2 } else { N1 }, 0)],
        Determiner => vec![(NP, 0), (N, -1)],
        Adjective => vec![(N, 0), (N, -1)],
        Name => vec![(if second { NP2 } else { NP1 }, 0)],
        Intransitive => vec![(NP, 1), (S1, 0)],
        Transitive => vec![(NP, 1), (S1, 0), (NP, -1)],
        Ditransitive => vec![(NP, 1), (S1, 0), (NP, -1), (NP, -1)],
        Auxiliary => vec![(NP, 1), (S1, 0), (J, -1)],
        Infinitive => vec![(I, 0)],
        InfinitiveWithObject => vec![(I, 0), (NP, -1)],
        Imperative => vec![(O, 0), (NP, -1)],
        Adverb => vec![(S, 1), (S, 0)],
        Preposition => vec![(S, 1), (S, 0), (NP, -1)],
        NounPreposition => vec![(N, 1), (N, 0), (NP, -1)],
        Conjunction => vec![(S, 1), (S, 0), (S, -1)],
    }
}

/// A new word of 3 to 10 letters.
fn new_word(random: &mut Random, words: &[(String, Class)]) -> String {
    loop {
        let length = 3 + random.below(8);
        let word: String = (0..length)
            .map(|_| (b'a' + random.below(26) as u8) as char)
            .collect();
        if words.iter().all(|(other, _)| *other != word) {
            return word;
        }
    }
}

/// A book of 20 basic types, 400 words and 1,000 entries: each word has an entry of its own class and one or two of other classes.
pub fn typical_book(random: &mut Random) -> (Vec<u8>, Vec<(String, Class)>) {
    let mut words = Vec::new();
    let mut entries: Vec<(String, Vec<Simple>)> = Vec::new();
    for k in 0..400 {
        let class = match k % 4 {
            0 => Noun,
            1 => CLASSES[k / 4 % CLASSES.len()],
            2 => *random.pick(&[Adjective, Name, Transitive, Adverb]),
            _ => *random.pick(&CLASSES),
        };
        let word = new_word(random, &words);
        entries.push((word.clone(), class_type(class, random.below(2) == 1)));
        for _ in 0..1 + k % 2 {
            let other = if class == Determiner {
                *random.pick(&OPEN)
            } else {
                *random.pick(&CLASSES)
            };
            entries.push((word.clone(), class_type(other, random.below(2) == 1)));
        }
        words.push((word, class));
    }
    random.shuffle(&mut entries);
    let mut book = Records::default();
    for name in NAMES {
        book.basic_type(name.as_bytes());
    }
    for (lower, upper) in PAIRS {
        book.pair(lower, upper);
    }
    book.target(S);
    for (word, simples) in entries {
        book.entry(word.as_bytes(), &simples);
    }
    (book.bytes(), words)
}

fn noun_phrase(random: &mut Random, line: &mut Vec<Class>) {
    match random.below(4) {
        0 => line.push(Name),
        1 => line.extend([Determiner, Noun]),
        2 => line.extend([Determiner, Adjective, Noun]),
        _ => line.extend([Determiner, Noun, NounPreposition, Name]),
    }
}

fn sentence(random: &mut Random, line: &mut Vec<Class>) {
    if random.below(4) == 0 {
        line.push(Imperative);
        noun_phrase(random, line);
        return;
    }
    noun_phrase(random, line);
    match random.below(5) {
        0 => line.push(Intransitive),
        1 => {
            line.push(Transitive);
            noun_phrase(random, line);
        }
        2 => {
            line.push(Ditransitive);
            noun_phrase(random, line);
            noun_phrase(random, line);
        }
        3 => line.extend([Auxiliary, Infinitive]),
        _ => {
            line.extend([Auxiliary, InfinitiveWithObject]);
            noun_phrase(random, line);
        }
    }
}

/// The classes of a line of so many words that reads.
fn reading_line(random: &mut Random, length: usize) -> Vec<Class> {
    loop {
        let mut line = Vec::new();
        sentence(random, &mut line);
        while line.len() < length {
            match random.below(3) {
                0 => line.push(Adverb),
                1 => {
                    line.push(Preposition);
                    noun_phrase(random, &mut line);
                }
                _ => {
                    line.push(Conjunction);
                    sentence(random, &mut line);
                }
            }
        }
        if line.len() == length {
            return line;
        }
    }
}

/// A line of so many words. One without a reading ends with a determiner, of which every entry wants something behind it.
fn line(random: &mut Random, words: &[(String, Class)], length: usize, reads: bool) -> Vec<u8> {
    let mut classes = reading_line(random, length);
    if !reads {
        classes[length - 1] = Determiner;
    }
    let line: Vec<&str> = classes
        .iter()
        .map(|class| {
            let fitting: Vec<&str> = words
                .iter()
                .filter(|(_, other)| other == class)
                .map(|(word, _)| word.as_str())
                .collect();
            *random.pick(&fitting)
        })
        .collect();
    line.join(" ").into_bytes()
}

/// Lines of 6 to 12 words against the typical book, and one of 12 in capitals.
pub fn typical() -> Vec<Sample> {
    let mut random = Random::new(1);
    let (book, words) = typical_book(&mut random);
    let mut samples = Vec::new();
    for length in 6..=12 {
        for reads in [true, false] {
            samples.push(Sample {
                name: format!("typical, {length} words, {}", outcome(reads)),
                book: book.clone(),
                line: line(&mut random, &words, length, reads),
            });
        }
    }
    // The last two lines have 12 words, and the first of them reads.
    let capitals = samples[samples.len() - 2].line.to_ascii_uppercase();
    samples.push(Sample {
        name: "typical, 12 words in capitals, reads".to_string(),
        book,
        line: capitals,
    });
    samples
}

/// 32 lines of 6 to 12 words for the typical book, of which every fourth has no reading.
pub fn batch() -> BatchSample {
    let mut random = Random::new(1);
    let (book, words) = typical_book(&mut random);
    let lines = (0..32).map(|k| line(&mut random, &words, 6 + k % 7, k % 4 != 3));
    BatchSample {
        lines: lines.collect(),
        book,
    }
}

fn outcome(reads: bool) -> &'static str {
    if reads {
        "reads"
    } else {
        "none"
    }
}
