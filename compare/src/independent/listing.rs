//! The listing that the program `reading` prints, by document 01 with requests
//! 2.4 and 2.7 of document 02.

use super::{first_reading, parse_book, words_of, Book, Reading, LINE_END};
use crate::types::Refusal;

const MOST_LINE_BYTES: usize = 4_096;

/// What the program prints where its file holds `book` and standard input
/// `input`. A file that cannot be opened counts as an empty book.
pub fn reading(book: &[u8], input: &[u8]) -> Vec<u8> {
    let line = first_line(input);
    if line.len() > MOST_LINE_BYTES {
        return b"long\n".to_vec();
    }
    match rows(book, line) {
        Ok(rows) => rows,
        Err((number, value)) => format!("no {number} {value}\n").into_bytes(),
    }
}

/// What stands before the first byte 10, or all where there is none.
fn first_line(input: &[u8]) -> &[u8] {
    let end = input.iter().position(|byte| *byte == LINE_END);
    &input[..end.unwrap_or(input.len())]
}

/// The rows of a line that is read: one for all, one for each word, one for
/// each simple type.
fn rows(book: &[u8], line: &[u8]) -> Result<Vec<u8>, Refusal> {
    let book = parse_book(book)?;
    let reading = first_reading(&book, line)?;
    let mut rows = first_row(&reading);
    for (place, (_, word)) in words_of(line)?.iter().enumerate() {
        rows.extend(word_row(&reading, place, word));
    }
    for place in 0..reading.string.len() {
        rows.extend(type_row(&book, &reading, place));
    }
    Ok(rows)
}

/// `yes`, how many words and how many simple types there are, and the target's
/// number.
fn first_row(reading: &Reading) -> Vec<u8> {
    let (words, simple_types) = (reading.choice.len(), reading.string.len());
    let target = reading.target_number;
    format!("yes {words} {simple_types} {target}\n").into_bytes()
}

/// A word's number from 1, the word as it is typed, and its entry.
fn word_row(reading: &Reading, place: usize, word: &[u8]) -> Vec<u8> {
    let number = (place + 1).to_string();
    let entry = reading.choice[place].number.to_string();
    row(&[number.as_bytes(), word, entry.as_bytes()])
}

/// A simple type's position from 1, its basic type's name, its exponent, its
/// partner and its letter.
fn type_row(book: &Book, reading: &Reading, place: usize) -> Vec<u8> {
    let simple = reading.string[place];
    let position = (place + 1).to_string();
    let exponent = simple.exponent.to_string();
    let partner = (reading.partners[place] + 1).to_string();
    row(&[
        position.as_bytes(),
        book.names[simple.basic],
        exponent.as_bytes(),
        partner.as_bytes(),
        letter(book, reading, place),
    ])
}

/// Whether the simple type at a place has the basic type of the one that it is
/// linked to, or of the target where it is unlinked: `e` for the same, `t` for
/// a different one.
fn letter(book: &Book, reading: &Reading, place: usize) -> &'static [u8] {
    let partner = reading.partners[place];
    let other = match partner == place {
        true => book.targets[reading.target_number],
        false => reading.string[partner].basic,
    };
    match reading.string[place].basic == other {
        true => b"e",
        false => b"t",
    }
}

/// The parts of a row with one space between two, and byte 10 behind them.
fn row(parts: &[&[u8]]) -> Vec<u8> {
    [&parts.join(&b' ')[..], &[LINE_END]].concat()
}
