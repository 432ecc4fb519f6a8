//! Batches: lines that are made for one book, closed and put together, with one fault or several.

use super::damaged_lines::{damage_bytes, damage_words};
use super::spellings::respell;
use super::{any, joined, Case, AMPLE};
use crate::books::word_ranges;
use crate::independent;
use crate::random::Random;
use crate::types::Refusal;

pub struct Batch {
    pub kind: &'static str,
    pub book: Vec<u8>,
    pub lines: Vec<u8>,
    pub lent: usize,
}

const MOST_LINES: usize = 32;
const MOST_BYTES: usize = 65_535;

/// More values than the answers of any batch take.
const AMPLE_FOR_ALL: usize = MOST_LINES * (2 + AMPLE);

/// The byte that closes a line.
const CLOSE: u8 = 10;

/// A batch of some kind.
pub fn batch(random: &mut Random) -> Batch {
    let case = any(random);
    for_case(random, case)
}

/// A batch of lines for the book of a case, which gives it its kind.
pub fn for_case(random: &mut Random, case: Case) -> Batch {
    let mut lines: Vec<Vec<u8>> = (0..count(random)).map(|_| line(random, &case)).collect();
    if random.chance(1, 20) {
        add_lines(random, &mut lines);
    }
    if random.chance(1, 20) {
        lengthen(random, &mut lines);
    }
    let mut lines: Vec<u8> = lines.iter().flat_map(|line| closed(line)).collect();
    if random.chance(1, 20) {
        open_last(random, &mut lines);
    }
    let lent = lent(random, &case.book, &lines);
    Batch {
        kind: case.kind,
        book: case.book,
        lines,
        lent,
    }
}

fn closed(line: &[u8]) -> Vec<u8> {
    [line, &[CLOSE]].concat()
}

/// How many lines: mostly a few, seldom none or as many as there may be.
fn count(random: &mut Random) -> usize {
    match random.below(40) {
        0 | 1 => 0,
        2 => MOST_LINES,
        3 => random.below(MOST_LINES),
        _ => 1 + random.below(6),
    }
}

/// A line for the case's book: the case's own, its words otherwise put together, words of the book, or none. It may be damaged,
/// respelt or made long, and has no byte 10.
fn line(random: &mut Random, case: &Case) -> Vec<u8> {
    let mut line = match random.below(10) {
        0..=3 => case.line.clone(),
        4..=6 => altered(random, &case.line),
        7 | 8 => of_book(random, &case.book),
        _ => vec![b' '; random.below(3)],
    };
    if random.chance(1, 6) {
        damage_bytes(random, &mut line);
    }
    if random.chance(1, 4) {
        respell(random, &mut [], &mut line);
    }
    if random.chance(1, 50) {
        let spaces = 4_097 + random.below(1_000);
        insert_spaces(random, &mut line, spaces);
    }
    for byte in line.iter_mut().filter(|byte| **byte == CLOSE) {
        *byte = 13;
    }
    line
}

/// The words of a line with one left out or doubled, in another order, or damaged.
fn altered(random: &mut Random, line: &[u8]) -> Vec<u8> {
    let mut words: Vec<Vec<u8>> = line
        .split(|byte| *byte == b' ')
        .map(<[u8]>::to_vec)
        .collect();
    let at = random.below(words.len());
    match random.below(4) {
        0 => drop(words.remove(at)),
        1 => words.insert(at, words[at].clone()),
        2 => random.shuffle(&mut words),
        _ => damage_words(random, &mut words),
    }
    joined(random, &words)
}

/// Up to seven words of a book's entries, often one or two.
fn of_book(random: &mut Random, book: &[u8]) -> Vec<u8> {
    let ranges = word_ranges(book);
    let any = random.below(8);
    let places = *random.pick(&[1, 2, any, any]).min(&ranges.len());
    let words: Vec<Vec<u8>> = (0..places)
        .map(|_| book[random.pick(&ranges).clone()].to_vec())
        .collect();
    joined(random, &words)
}

/// So many spaces at some place.
fn insert_spaces(random: &mut Random, line: &mut Vec<u8>, spaces: usize) {
    let at = random.below(line.len() + 1);
    line.splice(at..at, vec![b' '; spaces]);
}

/// As many lines as there may be, one more or many more.
fn add_lines(random: &mut Random, lines: &mut Vec<Vec<u8>>) {
    let more = random.below(40);
    let count = *random.pick(&[MOST_LINES, MOST_LINES + 1, MOST_LINES + 2 + more]);
    let line = match lines.first() {
        Some(first) if random.chance(1, 2) => first.clone(),
        _ => vec![],
    };
    lines.resize(count, line);
}

/// As many bytes as there may be, one less, one more or many more, by spaces in some line.
fn lengthen(random: &mut Random, lines: &mut [Vec<u8>]) {
    let far = MOST_BYTES + random.below(MOST_BYTES);
    let bytes = *random.pick(&[MOST_BYTES - 1, MOST_BYTES, MOST_BYTES + 1, far]);
    let present: usize = lines.iter().map(|line| line.len() + 1).sum();
    if !lines.is_empty() {
        let at = random.below(lines.len());
        insert_spaces(random, &mut lines[at], bytes.saturating_sub(present));
    }
}

/// Takes the last byte away, or adds bytes of a line that is not closed.
fn open_last(random: &mut Random, lines: &mut Vec<u8>) {
    match random.below(3) {
        0 => lines.extend(b" "),
        1 => lines.extend(b"go"),
        _ => drop(lines.pop()),
    }
}

/// A number of values lent: ample, or just enough, or too small, often by one.
fn lent(random: &mut Random, book: &[u8], lines: &[u8]) -> usize {
    let needed = needed(book, lines).map_or(5, |needed| needed.max(1));
    match random.below(10) {
        0..=2 => AMPLE_FOR_ALL,
        3 => needed + 1 + random.below(5),
        4..=6 => needed,
        7 => needed - 1,
        8 => 0,
        _ => random.below(needed),
    }
}

/// How many values the answers take, or why batch or book is refused.
fn needed(book: &[u8], lines: &[u8]) -> Result<usize, Refusal> {
    match independent::read_batch(book, lines, &mut []) {
        Ok(_) => Ok(0),
        Err((18, needed)) => Ok(needed as usize),
        Err(refusal) => Err(refusal),
    }
}

#[cfg(test)]
mod tests {
    use super::*;
    use crate::cases::reached::{assert_reached, note, Times};

    /// Something that batches are to reach, with whether one does.
    type Reached = (&'static str, bool);

    /// How many lines are closed.
    fn count_closed(batch: &Batch) -> usize {
        batch.lines.iter().filter(|byte| **byte == CLOSE).count()
    }

    /// The causes of 17, each without the others.
    fn bad_batch(batch: &Batch) -> [Reached; 5] {
        let (bytes, count) = (batch.lines.len(), count_closed(batch));
        let closed = batch.lines.last().is_none_or(|last| *last == CLOSE);
        let (few, short) = (count <= MOST_LINES, bytes <= MOST_BYTES);
        [
            ("33 lines", count == 33 && short && closed),
            ("many lines", count > 33 && short && closed),
            ("65,536 bytes", bytes == 65_536 && few && closed),
            ("many bytes", bytes > 65_536 && few && closed),
            ("not closed", !closed && few && short),
        ]
    }

    /// A bad book, alone and beside 17 and 18. The part of a line takes 3 to 317 values.
    fn bad_book(batch: &Batch) -> [Reached; 3] {
        let (lent, count) = (batch.lent, count_closed(batch));
        let bad = independent::check_book(&batch.book).is_err();
        let bad_batch = needed(&batch.book, &batch.lines) == Err((17, 0));
        [
            ("bad book", bad && !bad_batch && lent >= 317 * count),
            ("bad book beside 17", bad && bad_batch),
            ("bad book beside 18", bad && !bad_batch && lent < 3 * count),
        ]
    }

    /// Numbers of values lent where there are answers.
    fn values(batch: &Batch) -> [Reached; 5] {
        let lent = batch.lent;
        let needed = needed(&batch.book, &batch.lines).unwrap_or(0);
        [
            ("18, none lent", needed > 0 && lent == 0),
            ("18, one too few", needed > 0 && lent == needed - 1),
            ("18, several too few", lent > 0 && lent + 1 < needed),
            ("exactly enough", needed > 0 && lent == needed),
            ("values behind", needed > 0 && lent > needed),
        ]
    }

    /// Batches at the bounds that are answered.
    fn answered(batch: &Batch) -> [Reached; 4] {
        let needed = needed(&batch.book, &batch.lines);
        let answered = needed.is_ok_and(|needed| needed <= batch.lent);
        let count = count_closed(batch);
        let mut lines = batch.lines.split(|byte| *byte == CLOSE);
        let read = |line: &[u8]| independent::read_line(&batch.book, line, &mut [0; AMPLE]).is_ok();
        let long_line = lines.any(|line| line.len() > 4_096 && read(line));
        [
            ("no lines", answered && count == 0),
            ("32 lines", answered && count == 32),
            ("65,535 bytes", answered && batch.lines.len() == 65_535),
            ("over 4,096 bytes of a line", answered && long_line),
        ]
    }

    #[test]
    fn every_cause_is_reached() {
        let mut times = Times::new();
        for number in 0..5_000 {
            let batch = &batch(&mut Random::for_case(5, number));
            let faults = bad_batch(batch).into_iter().chain(bad_book(batch));
            let others = values(batch).into_iter().chain(answered(batch));
            for (what, reached) in faults.chain(others) {
                note(&mut times, what, reached);
            }
        }
        assert_reached("batches", &times, 17);
    }
}
