//! Runs of the program `reading`: a book for its file, or no file, and what stands on standard input.

use super::any;
use super::links::links;
use crate::random::Random;

pub struct Listing {
    pub kind: &'static str,
    /// What the file holds, where there is one.
    pub book: Option<Vec<u8>>,
    pub input: Vec<u8>,
}

/// How many bytes a line may have for the program.
const MOST_LINE_BYTES: usize = 4_096;

/// The byte that ends the line.
const END: u8 = 10;

/// Every second case is one of links, the others are of any kind. Seldom the line has as many bytes as it may have, or one more, and
/// seldom there is no file.
pub fn listing(random: &mut Random) -> Listing {
    let case = match random.chance(1, 2) {
        true => links(random),
        false => any(random),
    };
    let book = Some(case.book).filter(|_| random.chance(99, 100));
    let mut line = case.line;
    let seldom = if book.is_some() { 100 } else { 8 };
    if random.chance(1, seldom) {
        lengthen(random, &mut line);
    }
    Listing {
        kind: case.kind,
        book,
        input: ended(random, line),
    }
}

/// Brings a line to 4,096 or 4,097 bytes, with spaces before its words, behind them or between two.
fn lengthen(random: &mut Random, line: &mut Vec<u8>) {
    let length = MOST_LINE_BYTES + random.below(2);
    let between: Vec<usize> = (0..line.len()).filter(|at| line[*at] == b' ').collect();
    let ends = [0, line.len()];
    let at = match between.is_empty() || random.chance(1, 2) {
        true => *random.pick(&ends),
        false => *random.pick(&between),
    };
    let missing = length.saturating_sub(line.len());
    line.splice(at..at, vec![b' '; missing]);
    line.truncate(length);
}

/// The line with byte 10 behind it, sometimes with nothing, and sometimes with byte 10 and more.
fn ended(random: &mut Random, line: Vec<u8>) -> Vec<u8> {
    let behind = match random.below(10) {
        0 | 1 => vec![],
        2 => vec![END; 2 + random.below(3)],
        3 => [&[END], &line[..], &[END]].concat(),
        4 => [vec![END], any_bytes(random)].concat(),
        _ => vec![END],
    };
    [line, behind].concat()
}

/// A few bytes, or more than a line may have.
fn any_bytes(random: &mut Random) -> Vec<u8> {
    let most = *random.pick(&[8, 8, 8, 2 * MOST_LINE_BYTES]);
    let count = random.below(most);
    (0..count).map(|_| random.below(256) as u8).collect()
}

#[cfg(test)]
mod tests {
    use super::*;
    use crate::cases::reached::{assert_reached, note, Times};
    use crate::independent;

    #[test]
    fn files_and_inputs_of_every_kind_are_reached() {
        let mut times = Times::new();
        for number in 0..20_000 {
            let case = listing(&mut Random::for_case(16, number));
            let book = case.book.as_deref().unwrap_or_default();
            let output = independent::reading(book, &case.input);
            let line = case.input.split(|byte| *byte == END).next().unwrap();
            let ended = case.input.len() > line.len();
            let (read, long) = (output.starts_with(b"yes "), output == b"long\n");
            let most = line.len() == MOST_LINE_BYTES;
            note(&mut times, "no file", case.book.is_none() && !long);
            note(&mut times, "no file, long", case.book.is_none() && long);
            note(&mut times, "4,096 bytes, read", most && read);
            note(&mut times, "4,096 bytes, not read", most && !read);
            note(&mut times, "4,096 bytes without an end", most && !ended);
            note(&mut times, "4,097 bytes", line.len() == MOST_LINE_BYTES + 1);
            note(&mut times, "long without an end", long && !ended);
            note(&mut times, "read without an end", read && !ended);
            let behind = &case.input[line.len()..];
            note(&mut times, "read, more behind", read && behind.len() > 1);
            let much = case.input.len() > MOST_LINE_BYTES && line.len() < 100;
            note(&mut times, "read, much behind", read && much);
            let empty = line.is_empty() && behind.len() > 1;
            note(&mut times, "an empty line", empty);
            note(&mut times, "no input", case.input.is_empty());
            note(&mut times, "links", case.kind == "links");
            note(&mut times, "other kinds", case.kind != "links");
        }
        assert_reached("listings", &times, 14);
    }
}
