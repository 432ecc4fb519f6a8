//! The readers that are compared: the proved library, an independent one, and the twin of the library's algorithm.
use crate::types::{Counts, InTheWay, Refusal};
use crate::{independent, twin};

/// Checks a book alone.
pub type CheckBook = fn(&[u8]) -> Result<Counts, Refusal>;

/// Reads a line against a book: the number of values written to the answer, or a refusal with the answer untouched.
type ReadLine = fn(&[u8], &[u8], &mut [u16]) -> Result<u64, Refusal>;

/// Reads a line against a book, and tells which words are in the way where it has no reading.
pub type WordsInTheWay = fn(&[u8], &[u8], &mut [u16]) -> InTheWay;

/// Reads a batch of lines against a book: the number of lines, or a refusal with the answers untouched.
pub type ReadBatch = fn(&[u8], &[u8], &mut [u16]) -> Result<u64, Refusal>;

/// A reader by its entries.
#[derive(Clone, Copy)]
pub struct Reader {
    pub name: &'static str,
    pub check_book: CheckBook,
    pub read_line: ReadLine,
    pub words_in_the_way: WordsInTheWay,
    pub read_batch: ReadBatch,
}

pub const LIBRARY: Reader = Reader {
    name: "library",
    check_book: |book| match vurzhelik::check_book(book) {
        Ok(counts) => Ok(Counts {
            types: counts.types,
            entries: counts.entries,
            pairs: counts.pairs,
        }),
        Err(refusal) => Err((refusal.number, refusal.value)),
    },
    read_line: |book, line, answer| match vurzhelik::read_line(book, line, answer) {
        Ok(values) => Ok(values as u64),
        Err(refusal) => Err((refusal.number, refusal.value)),
    },
    words_in_the_way: |book, line, answer| match vurzhelik::words_in_the_way(book, line, answer) {
        Ok(values) => Ok(values as u64),
        Err(told) => Err(((told.refusal.number, told.refusal.value), told.words)),
    },
    read_batch: |book, lines, answers| match vurzhelik::read_batch(book, lines, answers) {
        Ok(count) => Ok(count as u64),
        Err(refusal) => Err((refusal.number, refusal.value)),
    },
};

pub const INDEPENDENT: Reader = Reader {
    name: "independent",
    check_book: independent::check_book,
    read_line: independent::read_line,
    words_in_the_way: independent::words_in_the_way,
    read_batch: independent::read_batch,
};

pub const TWIN: Reader = Reader {
    name: "twin",
    check_book: twin::check_book,
    read_line: twin::read_line,
    words_in_the_way: twin::words_in_the_way,
    read_batch: twin::read_batch,
};
