//! Lines with words in the way: lines of the other kinds, and long ones, changed word by word until they have no reading.

use super::borders::{try_book, words_that_read};
use super::{any, joined, lend, outcome, Case};
use crate::books::word_ranges;
use crate::random::Random;

/// A case that is read with the words in its way.
pub struct Way(pub Case);

/// How often a line is changed at most.
const CHANGES: usize = 12;

/// A line that most likely has no reading, and seldom one of any kind as it is.
pub fn way(random: &mut Random) -> Way {
    let mut case = match random.below(4) {
        0 => long(random),
        _ => whole(random),
    };
    case.plain = None;
    if random.chance(15, 16) {
        spoil(random, &mut case);
    }
    Way(case)
}

/// A case of any kind, seldom one that is refused before its line is read.
fn whole(random: &mut Random) -> Case {
    let case = any(random);
    match outcome(&case.book, &case.line) {
        Err((15, _)) | Ok(_) => case,
        Err(_) => any(random),
    }
}

/// The paper's first book, often with more targets, and a line of up to 24 words that reads.
fn long(random: &mut Random) -> Case {
    let book = try_book(random);
    let count = 1 + random.below(24);
    let words = words_that_read(random, count);
    let line = joined(random, &words);
    lend(random, "long", book.bytes(), line)
}

/// Changes the words of a line that reads until it does no more.
fn spoil(random: &mut Random, case: &mut Case) {
    for _ in 0..CHANGES {
        if outcome(&case.book, &case.line).is_err() {
            return;
        }
        let mut words = words_of(&case.line);
        change(random, &case.book, &mut words);
        case.line = joined(random, &words);
    }
}

/// The words of a line.
pub fn words_of(line: &[u8]) -> Vec<Vec<u8>> {
    let words = line.split(|byte| *byte == b' ');
    let words = words.filter(|word| !word.is_empty());
    words.map(<[u8]>::to_vec).collect()
}

/// Puts in a word of the book or doubles one of the line's, or exchanges one for the other or two of the line's.
fn change(random: &mut Random, book: &[u8], words: &mut Vec<Vec<u8>>) {
    let of_book = book[random.pick(&word_ranges(book)).clone()].to_vec();
    let (at, other) = (random.below(words.len()), random.below(words.len()));
    match random.below(8) {
        0..=3 => words.insert(random.below(words.len() + 1), of_book),
        4 | 5 => words.insert(at, words[at].clone()),
        6 => words[at] = of_book,
        _ => words.swap(at, other),
    }
}

#[cfg(test)]
mod tests {
    use super::*;
    use crate::cases::reached::{assert_reached, note, Times};
    use crate::independent;
    use crate::types::InTheWay;

    fn told(case: &Case) -> InTheWay {
        let mut answer = vec![0; case.lent];
        independent::words_in_the_way(&case.book, &case.line, &mut answer)
    }

    /// Where the words in the way stand, and how many there are.
    fn of_number(times: &mut Times, words: usize, number: u32) {
        let set = number.count_ones() as usize;
        note(times, "the empty line", words == 0);
        note(times, "one word", words == 1);
        note(times, "none in the way", words > 1 && set == 0);
        note(times, "one in the way", set == 1);
        note(times, "several in the way", set > 1 && set < words);
        note(times, "each in the way", words > 2 && set == words);
        note(times, "24 words", words == 24);
        for k in 0..24 {
            note(times, format!("bit {k}"), number >> k & 1 == 1);
        }
    }

    #[test]
    fn words_in_the_way_are_reached_at_every_place() {
        let mut times = Times::new();
        let mut others = Times::new();
        let mut unread = 0;
        for number in 0..20_000 {
            let Way(case) = way(&mut Random::for_case(12, number));
            let told = told(&case);
            if let Err((_, Some(number))) = told {
                of_number(&mut times, words_of(&case.line).len(), number);
                unread += 1;
            }
            note(&mut others, "read", told.is_ok());
            for refusal in [5, 8, 11, 12, 13, 14, 16] {
                let refused = matches!(told, Err(((number, _), None)) if number == refusal);
                note(&mut others, format!("refused with {refusal}"), refused);
            }
        }
        assert_reached("words in the way", &times, 31);
        assert_reached("other lines", &others, 8);
        assert!(unread > 12_000, "{unread} without a reading");
    }
}
