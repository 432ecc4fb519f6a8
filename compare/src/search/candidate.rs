//! A book and a line as the search changes them: the exponents of each word's entries, the line's words, which words share a key, and
//! how many targets there are. The basic types are all equal by a cycle of the order, so that their numbers do not matter, and the book
//! is filled up to its limits.
use crate::books::Records;
use crate::twin::figures::limits::{
    MAX_BOOK, MAX_ENTRIES, MAX_ENTRY_SIMPLES, MAX_LINES, MAX_LINE_SIMPLES, MAX_TYPES, MAX_WORDS,
};

/// The number of basic types as a type number.
const TYPES: u8 = MAX_TYPES as u8;

/// How many bytes a pair's record has.
const PAIR: usize = 6;

/// What words and the names of types begin with. They differ in their last bytes alone, and have seven: so few are compared one by
/// one, which is dearer than up to 31 of them eight at a time.
const WORD_START: &str = "wwwww";
const NAME_START: &str = "ttttt";

/// The number of a word that never stands in the line.
const STRANGER: usize = MAX_WORDS + 1;

/// The exponents of an entry's simple types.
pub type Entry = Vec<i8>;

/// A book and a line.
#[derive(Clone)]
pub struct Candidate {
    /// The entries of each word.
    pub words: Vec<Vec<Entry>>,
    /// The words of the line, by their numbers.
    pub line: Vec<usize>,
    /// Where all words have one key, how many entries of a stranger stand before theirs, as far as there is room. Where each word has a
    /// key of its own, nothing.
    pub strangers: Option<usize>,
    /// How many targets the book has. All are equal.
    pub targets: usize,
}

impl Candidate {
    /// How many simple types all entries of the line's words have.
    fn simples(&self) -> usize {
        let entries = self.line.iter().flat_map(|&word| &self.words[word]);
        entries.map(Vec::len).sum()
    }

    /// How many entries the book has before it is filled up.
    fn own_entries(&self) -> usize {
        self.words.iter().map(Vec::len).sum()
    }

    /// Whether the candidate is within the limits, and no word has two empty entries: with such the book is filled up.
    pub fn is_within_limits(&self) -> bool {
        let mut entries = self.words.iter().flatten();
        self.line.len() <= MAX_WORDS
            && self.simples() <= MAX_LINE_SIMPLES
            && self.own_entries() <= MAX_ENTRIES
            && entries.all(|entry| entry.len() <= MAX_ENTRY_SIMPLES)
            && self.words.iter().all(|entries| empty(entries) <= 1)
    }

    /// Drops the words that do not stand in the line, and numbers the others as they first stand in it.
    pub fn drop_unused(&mut self) {
        let mut kept: Vec<usize> = Vec::new();
        for word in &mut self.line {
            let number = kept.iter().position(|other| other == word);
            if number.is_none() {
                kept.push(*word);
            }
            *word = number.unwrap_or(kept.len() - 1);
        }
        self.words = kept.iter().map(|&word| self.words[word].clone()).collect();
    }

    /// The word that the book is filled up with: of those that have an empty entry the one that stands most often in the line. More
    /// empty entries of it are found each time, and change no reading.
    fn filler(&self) -> Option<usize> {
        let often = |word: usize| self.line.iter().filter(|&&other| other == word).count();
        (0..self.words.len())
            .filter(|&word| empty(&self.words[word]) > 0)
            .max_by_key(|&word| often(word))
    }

    /// The entries of the book in their order, each with its word: the stranger's, those of the line's words, and empty ones up to the
    /// last that a book may have. These stand at the end, or where all words have one key behind those of their word, so that the words
    /// that follow are sought past them.
    pub fn entries(&self) -> Vec<(usize, &[i8])> {
        let words = self.words.iter().enumerate();
        let mut all: Vec<(usize, &[i8])> = words
            .flat_map(|(word, entries)| entries.iter().map(move |entry| (word, &entry[..])))
            .collect();
        let room = MAX_ENTRIES - all.len();
        let strangers = self.strangers.unwrap_or(0).min(room);
        let filler = self.filler().unwrap_or(self.words.len());
        let last = all.iter().rposition(|&(word, _)| word == filler);
        let behind = match (self.strangers, last) {
            (Some(_), Some(last)) => last + 1,
            _ => all.len(),
        };
        all.splice(behind..behind, vec![(filler, &[][..]); room - strangers]);
        all.splice(..0, vec![(STRANGER, &[][..]); strangers]);
        all
    }

    /// The book: types, their cycle, the targets, the entries, and as many pairs of a type with itself as there is room for.
    pub fn book(&self) -> Vec<u8> {
        let mut book = Records::default();
        for number in 0..TYPES {
            book.basic_type(name(number as usize).as_bytes());
        }
        for number in 0..TYPES {
            book.pair(number, (number + 1) % TYPES);
        }
        for _ in 0..self.targets {
            book.target(0);
        }
        for (word, entry) in self.entries() {
            let simples: Vec<(u8, i8)> = entry.iter().map(|&exponent| (0, exponent)).collect();
            book.entry(self.spelt(word).as_bytes(), &simples);
        }
        for _ in 0..(MAX_BOOK - book.bytes().len()) / PAIR {
            book.pair(0, 0);
        }
        book.bytes()
    }

    /// Word number k. Its length, its first letter and its last one make its key.
    fn spelt(&self, k: usize) -> String {
        match self.strangers {
            Some(_) => format!("{WORD_START}{}w", letter(k)),
            None => format!("{WORD_START}w{}", letter(k)),
        }
    }

    /// The line's bytes, in capitals: letters that differ in case are the dearest to compare.
    pub fn line_bytes(&self) -> Vec<u8> {
        let words: Vec<String> = self.line.iter().map(|&word| self.spelt(word)).collect();
        words.join(" ").to_ascii_uppercase().into_bytes()
    }

    /// A batch of as many copies of the line as it may have, each closed by byte 10.
    pub fn batch_bytes(&self) -> Vec<u8> {
        let mut line = self.line_bytes();
        line.push(10);
        line.repeat(MAX_LINES)
    }
}

/// How many of the entries are empty.
fn empty(entries: &[Entry]) -> usize {
    entries.iter().filter(|entry| entry.is_empty()).count()
}

/// The name of type number k.
fn name(k: usize) -> String {
    format!("{NAME_START}{}{}", letter(k / 16), letter(k % 16))
}

fn letter(k: usize) -> char {
    (b'a' + k as u8) as char
}
