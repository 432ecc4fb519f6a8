//! A line: any bytes at all. Its words are found where they stand, and it is refused for a byte, a word, a word without an entry or
//! too many simple types, in this order.
use super::figures::limits::{MAX_LINE_SIMPLES, MAX_WORD, MAX_WORDS};
use super::figures::refusals::{BAD_LINE_BYTE, BAD_WORD, TOO_MANY_SIMPLES, UNKNOWN_WORD};
use super::find::{find_word, tally};
use super::search::find_byte;

/// What splitting a line gives: how many words it has, or the number that it is refused with and the value returned with it.
pub enum CheckedLine {
    Found(usize),
    Refused { number: u32, value: usize },
}

/// Whether a line may have this byte: 32 to 126.
fn is_line_byte(byte: u8) -> bool {
    matches!(byte, 32..=126)
}

/// The offset of the first byte that no line may have, or the line's length.
fn bad_byte(line: &[u8]) -> usize {
    line.iter()
        .position(|&byte| !is_line_byte(byte))
        .unwrap_or(line.len())
}

/// The offset of the next byte that is no space, or the line's length.
fn skip_spaces(line: &[u8], from: usize) -> usize {
    let mut i = from;
    while i < line.len() && line[i] == b' ' {
        i += 1;
    }
    i
}

/// Finds the words of a line and keeps where each starts and ends. There are places for 24 words.
fn split(line: &[u8], starts: &mut [usize], ends: &mut [usize]) -> CheckedLine {
    let bad = bad_byte(line);
    if bad < line.len() {
        return CheckedLine::Refused {
            number: BAD_LINE_BYTE,
            value: bad,
        };
    }
    let mut count = 0;
    let mut at = skip_spaces(line, 0);
    while at < line.len() {
        let end = find_byte(line, at, b' ');
        if MAX_WORD < end - at || MAX_WORDS <= count {
            return CheckedLine::Refused {
                number: BAD_WORD,
                value: at,
            };
        }
        starts[count] = at;
        ends[count] = end;
        count += 1;
        at = skip_spaces(line, end);
    }
    CheckedLine::Found(count)
}

/// Looks up all words of a line: each must have an entry (13), and all entries together not too many simple types (14). The first entry
/// of each word goes into `firsts`, and `same` threads the others.
fn look_up(
    book: &[u8],
    entries: &[u16],
    alike: &[u16],
    line: &[u8],
    starts: &[usize],
    ends: &[usize],
    firsts: &mut [u16],
    same: &mut [u16],
) -> CheckedLine {
    let mut sum = 0;
    for (k, (&start, &end)) in starts.iter().zip(ends).enumerate() {
        let first = find_word(book, entries, alike, &line[start..end], same);
        if entries.len() <= first {
            return CheckedLine::Refused {
                number: UNKNOWN_WORD,
                value: start,
            };
        }
        firsts[k] = first as u16;
        sum += tally(book, entries, same, first);
    }
    if MAX_LINE_SIMPLES < sum {
        return CheckedLine::Refused {
            number: TOO_MANY_SIMPLES,
            value: 0,
        };
    }
    CheckedLine::Found(starts.len())
}

/// Checks a line against a book whose entries are threaded by their keys: how many words it has, with their entries in `firsts` and
/// `same`, or the refusal 11 to 14 that it gets. What `same` has is about the book, so that the next line can go on with it.
pub fn check_line(
    book: &[u8],
    entries: &[u16],
    alike: &[u16],
    line: &[u8],
    firsts: &mut [u16],
    same: &mut [u16],
) -> CheckedLine {
    let mut starts = [0usize; MAX_WORDS];
    let mut ends = [0usize; MAX_WORDS];
    match split(line, &mut starts, &mut ends) {
        CheckedLine::Found(words) => {
            let (starts, ends) = (&starts[..words], &ends[..words]);
            look_up(book, entries, alike, line, starts, ends, firsts, same)
        }
        refused => refused,
    }
}
