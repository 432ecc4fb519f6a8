//! Reads a line against a book: the book is opened, the line split and its words looked up, and these are read.
use super::book::Scan;
use super::figures::limits::{CHART_WORDS, MAX_ENTRIES, MAX_WORDS};
use super::line::{check_line, CheckedLine};
use super::names::Names;
use super::opening::open_book;
use super::words::read_words;

/// What reading a line answers: how many values of the buffer are the answer's, or the number of the refusal and the value returned
/// with it; the buffer is then as it was.
pub type Answer = Result<usize, (u32, usize)>;

/// Reads a line against an open book. What `same` has is about the book, so that one list serves all lines, and so does one
/// list for their charts.
pub fn read_open(
    book: &[u8],
    names: &Names,
    entries: &[u16],
    alike: &[u16],
    order: &[u64],
    targets: &[u8],
    same: &mut [u16],
    chart: &mut [u64],
    line: &[u8],
    answer: &mut [u16],
) -> Answer {
    let mut firsts = [0u16; MAX_WORDS];
    let words = match check_line(book, entries, alike, line, &mut firsts, same) {
        CheckedLine::Refused { number, value } => return Err((number, value)),
        CheckedLine::Found(words) => words,
    };
    let firsts = &firsts[..words];
    read_words(
        book, names, entries, same, firsts, order, targets, chart, answer,
    )
}

/// Reads a line against a book: any bytes, of any length, and any lent buffer.
#[inline(never)]
pub fn read_line(book: &[u8], line: &[u8], answer: &mut [u16]) -> Answer {
    let open = open_book(book);
    match open.scan {
        Scan::Refused { number, value } => Err((number, value)),
        Scan::Accepted {
            types,
            entries,
            targets,
        } => {
            let mut same = [0u16; MAX_ENTRIES];
            let mut chart = [0u64; CHART_WORDS];
            read_open(
                book,
                &open.names,
                &open.entries[..entries],
                &open.alike,
                &open.order[..types],
                &open.targets[..targets],
                &mut same,
                &mut chart,
                line,
                answer,
            )
        }
    }
}
