//! The twin: the reader's algorithm in plain Rust, with the same functions, layouts and loops, and no contracts. For types in slash
//! notation it has functions of its own.
#![allow(clippy::too_many_arguments)]

mod answer;
mod batch;
mod bits;
mod book;
mod chart;
mod choice;
mod compare;
pub mod figures;
mod find;
mod first_reading;
mod graph;
pub mod keys;
pub mod layout;
mod letters;
mod line;
mod links;
mod names;
mod opening;
mod order;
mod pregroup;
mod reach;
mod reader;
pub mod rows;
mod search;
mod slashes;
mod slots;
mod table;
mod ways;
mod words;

use crate::types::{Counts, InTheWay, Refusal};
use book::BookCheck;

/// Checks a book alone.
pub fn check_book(book: &[u8]) -> Result<Counts, Refusal> {
    match book::check_book(book) {
        BookCheck::Accepted {
            types,
            entries,
            pairs,
        } => Ok(Counts {
            types: types as u64,
            entries: entries as u64,
            pairs,
        }),
        BookCheck::Refused { number, value } => Err((number, value as u64)),
    }
}

/// Reads a line against a book.
pub fn read_line(book: &[u8], line: &[u8], answer: &mut [u16]) -> Result<u64, Refusal> {
    wide(reader::read_line(book, line, answer))
}

/// Reads a line against a book, and tells which words are in the way where it has no reading.
pub fn words_in_the_way(book: &[u8], line: &[u8], answer: &mut [u16]) -> InTheWay {
    match ways::words_in_the_way(book, line, answer) {
        Ok(count) => Ok(count as u64),
        Err(((number, value), words)) => Err(((number, value as u64), words)),
    }
}

/// Reads a batch of lines against a book.
pub fn read_batch(book: &[u8], lines: &[u8], answers: &mut [u16]) -> Result<u64, Refusal> {
    wide(batch::read_batch(book, lines, answers))
}

fn wide(answer: reader::Answer) -> Result<u64, Refusal> {
    match answer {
        Ok(count) => Ok(count as u64),
        Err((number, value)) => Err((number, value as u64)),
    }
}
