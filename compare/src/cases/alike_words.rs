//! Words that a look-up could take for each other: with the same key, with one byte other, with a byte more or less, or with many
//! entries. Key means that of the library's threads: length, first byte and last byte alone count for it.

use super::ambiguous::Small;
use super::{joined, lend, Case};
use crate::random::Random;

const MOST_BYTES: usize = 31;
const MOST_ENTRIES: usize = 1_024;
const MOST_WORDS: usize = 24;

/// A way to make a word of another.
type Way = fn(&mut Random, Vec<u8>) -> Vec<u8>;

/// The first three keep the key, where the word is fit for them.
const WAYS: [Way; 6] = [
    change_inside,
    change_length,
    change_ends,
    change_byte,
    add_byte,
    drop_byte,
];

/// A byte of a word: a letter mostly.
fn byte(random: &mut Random) -> u8 {
    match random.below(8) {
        0 => *random.pick(b"09-"),
        _ => b'a' + random.below(26) as u8,
    }
}

/// A word of a few bytes, of about eight, or of any number.
fn word(random: &mut Random) -> Vec<u8> {
    let length = match random.below(3) {
        0 => random.between(1, 5),
        1 => random.between(6, 10),
        _ => random.between(1, MOST_BYTES as i64),
    };
    (0..length).map(|_| byte(random)).collect()
}

/// Another byte at a place that is not an end.
fn change_inside(random: &mut Random, mut word: Vec<u8>) -> Vec<u8> {
    if word.len() > 2 {
        let at = 1 + random.below(word.len() - 2);
        word[at] = byte(random);
    }
    word
}

/// Seven bytes more before the last one, and a first byte that is one lower.
fn change_length(random: &mut Random, mut word: Vec<u8>) -> Vec<u8> {
    if word.len() > 1 && word.len() + 7 <= MOST_BYTES {
        word[0] -= 1;
        let last = word.len() - 1;
        word.splice(last..last, (0..7).map(|_| byte(random)));
    }
    word
}

/// A first letter that is eleven lower, and a last one that is nine higher.
fn change_ends(_: &mut Random, mut word: Vec<u8>) -> Vec<u8> {
    if let [first @ b'l'..=b'z', .., last @ b'a'..=b'q'] = &mut word[..] {
        *first -= 11;
        *last += 9;
    }
    word
}

/// Another byte at some place.
fn change_byte(random: &mut Random, mut word: Vec<u8>) -> Vec<u8> {
    let at = random.below(word.len());
    word[at] = byte(random);
    word
}

/// A byte more at some place, often the end.
fn add_byte(random: &mut Random, mut word: Vec<u8>) -> Vec<u8> {
    if word.len() < MOST_BYTES {
        let inside = random.below(word.len());
        let at = *random.pick(&[inside, word.len()]);
        word.insert(at, byte(random));
    }
    word
}

/// The last byte less.
fn drop_byte(_: &mut Random, mut word: Vec<u8>) -> Vec<u8> {
    if word.len() > 1 {
        word.pop();
    }
    word
}

/// A word, and others that are made of it and of each other.
fn vocabulary(random: &mut Random) -> Vec<Vec<u8>> {
    let mut words = vec![word(random)];
    for _ in 0..2 + random.below(4) {
        let word = random.pick(&words).clone();
        words.push(random.pick(&WAYS)(random, word));
    }
    words
}

/// Puts more entries into the book, often up to the last that it may have: of one word or of any, most of them empty, before the others,
/// behind them or among them.
fn add_entries(random: &mut Random, small: &mut Small, vocabulary: &[Vec<u8>]) {
    let room = MOST_ENTRIES - small.entries.len();
    let fewer = random.below(room);
    let count = *random.pick(&[room, fewer]);
    let one = [random.pick(vocabulary).clone()];
    let words = *random.pick(&[vocabulary, &one]);
    let to_a_type = *random.pick(&[200, 200, 200, 4]);
    let more: Vec<_> = (0..count)
        .map(|_| {
            let word = random.pick(words).clone();
            match random.chance(1, to_a_type) {
                true => (word, small.types.shaped(random)),
                false => (word, vec![]),
            }
        })
        .collect();
    let at = *random.pick(&[0, small.entries.len()]);
    small.entries.splice(at..at, more);
    if random.chance(1, 3) {
        random.shuffle(&mut small.entries);
    }
}

/// Gives all entries and the whole line to one word.
fn keep_one_word(random: &mut Random, small: &mut Small, vocabulary: &[Vec<u8>]) {
    let one = random.pick(vocabulary);
    small.words.fill(one.clone());
    for (word, _) in &mut small.entries {
        word.clone_from(one);
    }
}

/// Takes all entries of a word out of the book.
fn drop_entries(random: &mut Random, small: &mut Small, vocabulary: &[Vec<u8>]) {
    let without = random.pick(vocabulary);
    small.entries.retain(|(word, _)| word != without);
}

/// A small book of words alike, seldom with many entries, and a line over them; sometimes a word has no entry.
fn small(random: &mut Random) -> Small {
    let vocabulary = vocabulary(random);
    let mut small = Small::over(random, &vocabulary);
    if random.chance(1, 30) {
        add_entries(random, &mut small, &vocabulary);
        if random.chance(1, 5) {
            keep_one_word(random, &mut small, &vocabulary);
        }
    }
    if random.chance(1, 4) {
        drop_entries(random, &mut small, &vocabulary);
    }
    if random.chance(1, 8) {
        let at = random.below(small.words.len() + 1);
        small.words.insert(at, word(random));
    }
    if random.chance(1, 8) {
        let again = [small.words.clone(), small.words.clone()].concat();
        small.words.extend(again);
        small.words.truncate(MOST_WORDS);
    }
    small
}

pub fn alike_words(random: &mut Random) -> Case {
    let small = small(random);
    let book = small.records(random).bytes();
    let line = joined(random, &small.words);
    lend(random, "alike words", book, line)
}

#[cfg(test)]
mod tests {
    use super::*;
    use crate::books::word_ranges;
    use crate::cases::reached::{assert_reached, note, Times};
    use crate::cases::{batches, outcome};
    use crate::twin::keys::key_of;
    use std::collections::BTreeMap;

    /// Something that lines are to reach, with whether one does.
    type Reached = (&'static str, bool);

    /// A word in small letters.
    fn small_letters(word: &[u8]) -> Vec<u8> {
        word.to_ascii_lowercase()
    }

    /// A line's word beside the words of a book's entries, all in small letters.
    struct Sought<'a> {
        word: &'a [u8],
        entries: &'a [Vec<u8>],
    }

    impl Sought<'_> {
        fn first(&self) -> Option<usize> {
            self.entries.iter().position(|entry| entry == self.word)
        }

        fn last(&self) -> Option<usize> {
            self.entries.iter().rposition(|entry| entry == self.word)
        }

        fn count(&self) -> usize {
            let of_word = |entry: &&Vec<u8>| *entry == self.word;
            self.entries.iter().filter(of_word).count()
        }

        /// The places of other words with the word's key.
        fn strangers(&self) -> impl Iterator<Item = usize> + '_ {
            let alike = |entry: &[u8]| entry != self.word && key_of(entry) == key_of(self.word);
            (0..self.entries.len()).filter(move |&place| alike(&self.entries[place]))
        }

        /// Other words with the word's key, of each form, before the word's entries, between them and behind them.
        fn of_key(&self) -> [Reached; 6] {
            let word = self.word;
            let known = self.first().is_some();
            let (first, last) = (self.first().unwrap_or(0), self.last().unwrap_or(0));
            let some = |fits: &dyn Fn(usize) -> bool| known && self.strangers().any(fits);
            let length = |place: usize| self.entries[place].len();
            let ends = |place: usize| (self.entries[place].first(), self.entries[place].last());
            [
                ("one key, before", some(&|place| place < first)),
                (
                    "one key, between",
                    some(&|place| first < place && place < last),
                ),
                ("one key, behind", some(&|place| last < place)),
                (
                    "one key, same ends",
                    some(&|place| {
                        length(place) == word.len() && ends(place) == (word.first(), word.last())
                    }),
                ),
                (
                    "one key, other length",
                    some(&|place| length(place) != word.len()),
                ),
                (
                    "one key, other ends",
                    some(&|place| {
                        length(place) == word.len() && ends(place) != (word.first(), word.last())
                    }),
                ),
            ]
        }

        /// Entries of words that are nearly the word.
        fn near(&self) -> [Reached; 2] {
            let one_other = |entry: &Vec<u8>| {
                let differ = entry.iter().zip(self.word).filter(|(x, y)| x != y);
                entry.len() == self.word.len() && differ.count() == 1
            };
            let one_more = |entry: &Vec<u8>| {
                entry.len().abs_diff(self.word.len()) == 1
                    && (entry.starts_with(self.word) || self.word.starts_with(entry))
            };
            let known = self.first().is_some();
            [
                (
                    "one byte other",
                    known && self.entries.iter().any(one_other),
                ),
                (
                    "one byte more or less",
                    known && self.entries.iter().any(one_more),
                ),
            ]
        }

        /// Numbers of entries, and the first and the last of the book.
        fn places(&self) -> [Reached; 5] {
            let last = self.last();
            [
                ("over 100 entries of a word", self.count() > 100),
                ("1,024 entries of a word", self.count() == MOST_ENTRIES),
                ("first entry of the book", self.first() == Some(0)),
                (
                    "last entry of the book",
                    last.is_some_and(|last| last + 1 == self.entries.len()),
                ),
                ("entry 1,023", last == Some(MOST_ENTRIES - 1)),
            ]
        }

        /// Words without an entry, and whether their key has some.
        fn unknown(&self) -> [Reached; 2] {
            let unknown = self.first().is_none();
            let alike = self.strangers().next().is_some();
            [
                ("unknown, key with entries", unknown && alike),
                ("unknown, key without", unknown && !alike),
            ]
        }
    }

    /// Words that stand in a line twice, and words that are spelt in two ways.
    fn of_line(spelt: &[Vec<u8>], words: &[&[u8]]) -> [Reached; 3] {
        let again = |fits: &dyn Fn(&[u8], &[u8]) -> bool| {
            let others = |place: usize| words[..place].iter();
            (0..words.len()).any(|place| others(place).any(|other| fits(other, words[place])))
        };
        let case_alone = |one: &[u8], other: &[u8]| one != other && one.eq_ignore_ascii_case(other);
        let entry_case = |word: &&[u8]| spelt.iter().any(|entry| case_alone(entry, word));
        [
            ("word again", again(&|one, other| one == other)),
            ("word again, case other", again(&case_alone)),
            ("case other than the entry's", words.iter().any(entry_case)),
        ]
    }

    /// What a line reaches, where its book is accepted and its words may be looked up; with what it is answered.
    fn reached(book: &[u8], line: &[u8]) -> Vec<Reached> {
        let outcome = outcome(book, line);
        if matches!(outcome, Err((1..=12 | 19..=21, _))) {
            return vec![];
        }
        let ranges = word_ranges(book).into_iter();
        let spelt: Vec<Vec<u8>> = ranges.map(|range| book[range].to_vec()).collect();
        let entries: Vec<Vec<u8>> = spelt.iter().map(|word| small_letters(word)).collect();
        let words = line.split(|byte| *byte == b' ');
        let words: Vec<&[u8]> = words.filter(|word| !word.is_empty()).collect();
        let mut all = of_line(&spelt, &words).to_vec();
        for word in &words {
            let word = &small_letters(word);
            let entries = &entries[..];
            let sought = Sought { word, entries };
            all.extend(sought.of_key());
            all.extend(sought.near());
            all.extend(sought.places());
            all.extend(sought.unknown());
        }
        let passed = all
            .iter()
            .any(|&(what, reached)| what == "one key, before" && reached);
        all.push(("one key, before, reads", passed && outcome.is_ok()));
        all.push(("too many simple types", outcome == Err((14, 0))));
        all
    }

    /// Counts the lines that reach each thing.
    fn count(times: &mut Times, book: &[u8], line: &[u8]) {
        let all = reached(book, line);
        let by_name: BTreeMap<_, bool> = all.iter().fold(BTreeMap::new(), |mut by_name, one| {
            *by_name.entry(one.0).or_default() |= one.1;
            by_name
        });
        for (what, reached) in by_name {
            note(times, what, reached);
        }
    }

    #[test]
    fn every_corner_of_the_look_up_is_reached_by_lines() {
        let mut times = Times::new();
        for number in 0..5_000 {
            let case = alike_words(&mut Random::for_case(6, number));
            count(&mut times, &case.book, &case.line);
        }
        assert_reached("lines", &times, 20);
    }

    #[test]
    fn every_corner_of_the_look_up_is_reached_by_batches() {
        let mut times = Times::new();
        for number in 0..2_000 {
            let random = &mut Random::for_case(7, number);
            let case = alike_words(random);
            let batch = batches::for_case(random, case);
            for line in batch.lines.split(|byte| *byte == b'\n') {
                count(&mut times, &batch.book, line);
            }
        }
        assert_reached("lines of batches", &times, 20);
    }
}
