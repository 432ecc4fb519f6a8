//! Test cases: a book, a line or a batch of lines, and the number of values lent, of several kinds.

mod alike_words;
mod ambiguous;
mod batches;
mod borders;
mod damaged_books;
mod damaged_lines;
mod links;
mod listings;
mod papers;
#[cfg(test)]
mod reached;
mod slashes;
mod spellings;
mod targets;
mod ways;

use crate::independent;
use crate::random::Random;
use crate::types::Refusal;
pub use ambiguous::ambiguous;
pub use batches::{batch, Batch};
pub use listings::{listing, Listing};
pub use spellings::spellings;
pub use ways::{way, words_of, Way};

pub struct Case {
    pub kind: &'static str,
    pub book: Vec<u8>,
    pub line: Vec<u8>,
    pub lent: usize,
    /// The book before types of its entries were written as texts, where that must change no outcome.
    pub plain: Option<Vec<u8>>,
}

/// More values than any answer takes: 3 + 24 words + 24 times 12 simple types.
pub const AMPLE: usize = 320;

type Maker = fn(&mut Random) -> Case;

/// The makers with their shares of 2,000 cases.
const MAKERS: [(usize, Maker); 9] = [
    (600, ambiguous),
    (240, slashes::slashes),
    (200, spellings),
    (150, alike_words::alike_words),
    (200, papers::papers),
    (320, damaged_books::damaged_books),
    (258, damaged_lines::damaged_lines),
    (30, borders::small_borders),
    (2, borders::big_borders),
];

/// A case of some kind.
pub fn any(random: &mut Random) -> Case {
    let mut place = random.below(2_000);
    for (share, maker) in MAKERS {
        if place < share {
            return maker(random);
        }
        place -= share;
    }
    unreachable!("the shares make 2,000")
}

/// The case of a kind: with its words respelt in every second case, with types
/// written as texts in every second one, and with a number of values lent that
/// is often just enough or just too small.
fn lend(random: &mut Random, kind: &'static str, mut book: Vec<u8>, mut line: Vec<u8>) -> Case {
    if random.chance(1, 2) {
        spellings::respell(random, &mut book, &mut line);
    }
    let plain = match random.chance(1, 2) {
        true => slashes::rewrite(random, &mut book),
        false => None,
    };
    let lent = match random.below(10) {
        0..=4 => AMPLE,
        5 | 6 => needed(&book, &line),
        7 | 8 => needed(&book, &line).saturating_sub(1),
        _ => random.below(needed(&book, &line) + 3).saturating_sub(2),
    };
    Case {
        kind,
        book,
        line,
        lent,
        plain,
    }
}

/// What a line gets with ample buffer.
fn outcome(book: &[u8], line: &[u8]) -> Result<u64, Refusal> {
    independent::read_line(book, line, &mut [0; AMPLE])
}

/// How many values the answer takes; for a refused line a small number.
fn needed(book: &[u8], line: &[u8]) -> usize {
    outcome(book, line).unwrap_or(5) as usize
}

/// The words with one space between two, seldom more, and seldom spaces at
/// the ends.
fn joined(random: &mut Random, words: &[Vec<u8>]) -> Vec<u8> {
    let mut line = spaces(random, 0);
    for (place, word) in words.iter().enumerate() {
        if place > 0 {
            line.extend(spaces(random, 1));
        }
        line.extend(word);
    }
    line.extend(spaces(random, 0));
    line
}

fn spaces(random: &mut Random, least: usize) -> Vec<u8> {
    let more = match random.chance(1, 10) {
        true => random.below(4),
        false => 0,
    };
    vec![b' '; least + more]
}
