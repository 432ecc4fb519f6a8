//! Tells which words are in the way of a line without a reading: the line is read as ever, and where it gets 15 each word is left out in
//! turn.
use super::book::Scan;
use super::figures::limits::{CHART_WORDS, MAX_ENTRIES, MAX_WORDS};
use super::figures::refusals::NO_READING;
use super::line::{check_line, CheckedLine};
use super::names::Names;
use super::opening::open_book;
use super::words::{has_reading, read_words};

/// How many values of the buffer are the answer's, or a refusal, with the number of the words in the way beside 15.
pub type WayAnswer = Result<usize, ((u32, usize), Option<u32>)>;

/// Leaves out each word in turn, from the last to the first, and tells by bit k whether the words without word k + 1 have a reading. The
/// word left out before takes the place of the next one, so that the first places of `firsts` always have the other words in their order.
fn try_each(
    book: &[u8],
    names: &Names,
    entries: &[u16],
    same: &[u16],
    firsts: &mut [u16],
    order: &[u64],
    targets: &[u8],
    chart: &mut [u64],
) -> u32 {
    let mut number = 0;
    let mut left_out = 0;
    let words = firsts.len();
    let mut k = words;
    while 0 < k {
        k -= 1;
        let next = firsts[k];
        firsts[k] = left_out;
        left_out = next;
        number *= 2;
        let others = &firsts[..words - 1];
        if has_reading(book, names, entries, same, others, order, targets, chart) {
            number += 1;
        }
    }
    number
}

/// Reads a line against an open book, and tells which words are in the way where it has no reading.
fn read_or_try(
    book: &[u8],
    names: &Names,
    entries: &[u16],
    alike: &[u16],
    order: &[u64],
    targets: &[u8],
    line: &[u8],
    answer: &mut [u16],
) -> WayAnswer {
    let mut firsts = [0u16; MAX_WORDS];
    let mut same = [0u16; MAX_ENTRIES];
    let mut chart = [0u64; CHART_WORDS];
    let words = match check_line(book, entries, alike, line, &mut firsts, &mut same) {
        CheckedLine::Refused { number, value } => return Err(((number, value), None)),
        CheckedLine::Found(words) => words,
    };
    let firsts = &mut firsts[..words];
    let read = read_words(
        book, names, entries, &same, firsts, order, targets, &mut chart, answer,
    );
    match read {
        Err((NO_READING, value)) => {
            let number = try_each(
                book, names, entries, &same, firsts, order, targets, &mut chart,
            );
            Err(((NO_READING, value), Some(number)))
        }
        _ => read.map_err(|refusal| (refusal, None)),
    }
}

/// Reads a line against a book, and tells which words are in the way where it has no reading: any bytes, of any length, and any lent
/// buffer.
#[inline(never)]
pub fn words_in_the_way(book: &[u8], line: &[u8], answer: &mut [u16]) -> WayAnswer {
    let open = open_book(book);
    match open.scan {
        Scan::Refused { number, value } => Err(((number, value), None)),
        Scan::Accepted {
            types,
            entries,
            targets,
        } => read_or_try(
            book,
            &open.names,
            &open.entries[..entries],
            &open.alike,
            &open.order[..types],
            &open.targets[..targets],
            line,
            answer,
        ),
    }
}
