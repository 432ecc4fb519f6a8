//! Reads a batch of lines against a book: the lines are counted, the book is opened once, each line is read into a store behind the
//! others, with one list of threads and one chart for all, and the store is copied into the lent buffer where its values fit.
use super::book::Scan;
use super::figures::limits::{CHART_WORDS, MAX_BATCH, MAX_BATCH_VALUES, MAX_ENTRIES, MAX_LINES};
use super::figures::refusals::{ANSWERS_TOO_LONG, BAD_BATCH};
use super::names::Names;
use super::opening::open_book;
use super::reader::{read_open, Answer};
use super::search::find_byte;

/// The byte that closes a line.
const LINE_BREAK: u8 = 10;

/// How many lines there are, or `BAD_BATCH`.
fn count_lines(lines: &[u8]) -> Answer {
    if MAX_BATCH < lines.len() {
        return Err((BAD_BATCH, 0));
    }
    let mut count = 0;
    for &byte in lines {
        if byte == LINE_BREAK {
            count += 1;
        }
    }
    if MAX_LINES < count {
        return Err((BAD_BATCH, 0));
    }
    match lines.last() {
        Some(&last) if last != LINE_BREAK => Err((BAD_BATCH, 0)),
        _ => Ok(count),
    }
}

/// Puts a refused line's part, and gives how many values it has.
fn put_refusal(part: &mut [u16], number: u32, value: usize) -> usize {
    part[0] = 2;
    part[1] = number as u16;
    part[2] = value as u16;
    3
}

/// Puts the two values before an answer that stands behind them already, and gives how many values the part has.
fn put_head(part: &mut [u16], values: usize) -> usize {
    part[0] = (1 + values) as u16;
    part[1] = 0;
    2 + values
}

/// Reads a line and puts its part. Gives how many values it has.
fn read_part(
    book: &[u8],
    names: &Names,
    entries: &[u16],
    alike: &[u16],
    order: &[u64],
    targets: &[u8],
    same: &mut [u16],
    chart: &mut [u64],
    line: &[u8],
    part: &mut [u16],
) -> usize {
    let answer = &mut part[2..];
    match read_open(
        book, names, entries, alike, order, targets, same, chart, line, answer,
    ) {
        Ok(values) => put_head(part, values),
        Err((number, value)) => put_refusal(part, number, value),
    }
}

/// Reads all lines of a batch and puts their parts one behind another. Gives how many values these are.
fn read_parts(
    book: &[u8],
    names: &Names,
    entries: &[u16],
    alike: &[u16],
    order: &[u64],
    targets: &[u8],
    same: &mut [u16],
    chart: &mut [u64],
    batch: &[u8],
    store: &mut [u16],
) -> usize {
    let mut at = 0;
    let mut used = 0;
    while at < batch.len() {
        let end = find_byte(batch, at, LINE_BREAK);
        used += read_part(
            book,
            names,
            entries,
            alike,
            order,
            targets,
            same,
            chart,
            &batch[at..end],
            &mut store[used..],
        );
        at = end + 1;
    }
    used
}

/// Reads lines, each closed by byte 10: how many there are, or a refusal.
#[inline(never)]
pub fn read_batch(book: &[u8], lines: &[u8], answers: &mut [u16]) -> Answer {
    let count = count_lines(lines)?;
    let open = open_book(book);
    match open.scan {
        Scan::Refused { number, value } => Err((number, value)),
        Scan::Accepted {
            types,
            entries,
            targets,
        } => {
            let mut same = [0u16; MAX_ENTRIES];
            let mut chart = [0u64; CHART_WORDS];
            let mut store = [0u16; MAX_BATCH_VALUES];
            let used = read_parts(
                book,
                &open.names,
                &open.entries[..entries],
                &open.alike,
                &open.order[..types],
                &open.targets[..targets],
                &mut same,
                &mut chart,
                lines,
                &mut store,
            );
            if answers.len() < used {
                return Err((ANSWERS_TOO_LONG, used));
            }
            answers[..used].copy_from_slice(&store[..used]);
            Ok(count)
        }
    }
}
