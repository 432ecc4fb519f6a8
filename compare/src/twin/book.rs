//! A book: any bytes at all, accepted with its contents or refused by the first rule it breaks.
use super::bits;
use super::compare;
use super::figures::limits::{
    MAX_BOOK, MAX_ENTRIES, MAX_ENTRY_SIMPLES, MAX_EXPONENT, MAX_NAME, MAX_TARGETS, MAX_TYPES,
    MAX_WORD,
};
use super::figures::refusals::{
    BAD_LAYOUT, BOOK_TOO_LONG, CUT_SHORT, EXPONENT_OUTSIDE, KIND_NOT_LISTED, NAME_USED, NO_TARGET,
    TOO_MANY_RECORDS, TOO_MANY_TARGETS, UNDECLARED_TYPE,
};
use super::names::{no_names, Names};
use super::order;
use super::slashes::{count_names, text_fault, write_type, Simple};

/// The bytes of a record's head: the body's length and the kind.
const HEAD: usize = 4;

/// The kind of an entry with its type in slash notation.
const SLASHED: usize = 5;

/// The byte of the least exponent.
const LEAST_EXPONENT: u8 = 255 - (MAX_EXPONENT - 1);

/// A reader of a book's records: the book and the offset of the next record.
struct RecordReader<'a> {
    book: &'a [u8],
    at: usize,
}

/// How far a book has been read: the offset of the next record, and how many basic types, entries and targets there were.
#[derive(Clone, Copy)]
struct Progress {
    at: usize,
    types: usize,
    entries: usize,
    targets: usize,
}

/// What reading all records gives: the book's counts, or the number of the refusal and the value returned with it.
pub enum Scan {
    Accepted {
        types: usize,
        entries: usize,
        targets: usize,
    },
    Refused {
        number: u32,
        value: usize,
    },
}

/// What the book check answers: the number of basic types, of entries and of pairs p ≤ q in the closed order; or the number of the
/// refusal and the value returned with it.
#[derive(Clone, Copy, Debug, PartialEq, Eq)]
pub enum BookCheck {
    Accepted {
        types: usize,
        entries: usize,
        pairs: u64,
    },
    Refused {
        number: u32,
        value: usize,
    },
}

/// A byte in the width that the code counts in.
#[inline]
pub fn wide_byte(byte: u8) -> usize {
    byte as usize
}

/// A number of 16 bits in that width: a kept offset, an entry's number or a value of an answer.
#[inline]
pub fn wide_number(number: u16) -> usize {
    number as usize
}

/// The little-endian number of the two bytes from `at` on.
fn two_bytes(bytes: &[u8], at: usize) -> usize {
    wide_byte(bytes[at]) + 256 * wide_byte(bytes[at + 1])
}

/// The body of the record at an offset, which is there whole.
pub fn body_at(book: &[u8], at: usize) -> &[u8] {
    let start = at + HEAD;
    let end = start + two_bytes(book, at);
    &book[start..end]
}

pub fn is_letter(byte: u8) -> bool {
    byte.is_ascii_lowercase()
}

pub fn is_name_byte(byte: u8) -> bool {
    matches!(byte, b'a'..=b'z' | b'0'..=b'9')
}

fn is_word_byte(byte: u8) -> bool {
    matches!(byte, 33..=126)
}

/// Whether a byte holds an exponent from -8 to 8, in two's complement.
fn is_exponent(byte: u8) -> bool {
    matches!(byte, 0..=MAX_EXPONENT | LEAST_EXPONENT..=255)
}

fn all_name_bytes(bytes: &[u8]) -> bool {
    bytes.iter().all(|&byte| is_name_byte(byte))
}

fn all_word_bytes(bytes: &[u8]) -> bool {
    bytes.iter().all(|&byte| is_word_byte(byte))
}

/// Whether a body is a basic type's: 1 to 15 bytes, a letter first.
fn is_name(body: &[u8]) -> bool {
    if body.is_empty() || MAX_NAME < body.len() {
        return false;
    }
    is_letter(body[0]) && all_name_bytes(body)
}

/// Whether a body begins with the length of a word and the word.
fn has_word(body: &[u8]) -> bool {
    if body.is_empty() {
        return false;
    }
    let length = wide_byte(body[0]);
    if !(1..=MAX_WORD).contains(&length) || body.len() <= length {
        return false;
    }
    all_word_bytes(&body[1..1 + length])
}

/// Whether a body is an entry's: the word's length, the word, then pairs of a type number and an exponent.
fn is_entry(body: &[u8]) -> bool {
    if !has_word(body) {
        return false;
    }
    let rest = type_part(body).len();
    rest.is_multiple_of(2) && rest <= 2 * MAX_ENTRY_SIMPLES
}

/// The part of an entry's body that holds its type, as pairs or as text.
fn type_part(body: &[u8]) -> &[u8] {
    let start = 1 + wide_byte(body[0]);
    &body[start..]
}

/// The word of an entry's body.
pub fn word_part(body: &[u8]) -> &[u8] {
    let end = 1 + wide_byte(body[0]);
    &body[1..end]
}

/// The kind of the record at an offset.
fn kind_at(book: &[u8], at: usize) -> usize {
    two_bytes(book, at + 2)
}

/// How many simple types the entry at an offset has.
pub fn entry_length(book: &[u8], at: usize) -> usize {
    let part = type_part(body_at(book, at));
    match kind_at(book, at) {
        SLASHED => count_names(part),
        _ => part.len() / 2,
    }
}

/// The type of the entry at an offset as pairs of a type number and an exponent: where it stands in the book, or written out.
pub fn entry_type<'a>(
    book: &'a [u8],
    names: &Names,
    at: usize,
    simples: &'a mut [Simple],
) -> &'a [u8] {
    let part = type_part(body_at(book, at));
    match kind_at(book, at) {
        SLASHED => {
            let count = write_type(book, names, part, simples);
            simples[..count].as_flattened()
        }
        _ => part,
    }
}

/// Whether all type numbers of a type are below the number of basic types.
fn all_declared(part: &[u8], types: usize) -> bool {
    part.chunks_exact(2).all(|pair| wide_byte(pair[0]) < types)
}

/// Whether all exponents of a type are from -8 to 8.
fn all_exponents(part: &[u8]) -> bool {
    part.chunks_exact(2).all(|pair| is_exponent(pair[1]))
}

/// Whether a body is the name of one of the basic types whose records start at the kept offsets.
fn name_used(book: &[u8], names: &Names, types: usize, body: &[u8]) -> bool {
    names.offsets[..types]
        .iter()
        .any(|&at| compare::same(body, body_at(book, wide_number(at))))
}

/// The rules for a basic type: its layout, a name used before, one too many.
fn name_fault(book: &[u8], names: &Names, types: usize, body: &[u8]) -> u32 {
    if !is_name(body) {
        return BAD_LAYOUT;
    }
    if name_used(book, names, types, body) {
        return NAME_USED;
    }
    if MAX_TYPES <= types {
        return TOO_MANY_RECORDS;
    }
    0
}

/// The rules for an order pair: its layout, and two declared type numbers.
fn pair_fault(body: &[u8], types: usize) -> u32 {
    if body.len() != 2 {
        return BAD_LAYOUT;
    }
    if types <= wide_byte(body[0]) {
        return UNDECLARED_TYPE;
    }
    if types <= wide_byte(body[1]) {
        return UNDECLARED_TYPE;
    }
    0
}

/// The rules for an entry: its layout, declared type numbers, exponents from -8 to 8, one too many.
fn entry_fault(body: &[u8], types: usize, entries: usize) -> u32 {
    if !is_entry(body) {
        return BAD_LAYOUT;
    }
    let part = type_part(body);
    if !all_declared(part, types) {
        return UNDECLARED_TYPE;
    }
    if !all_exponents(part) {
        return EXPONENT_OUTSIDE;
    }
    if MAX_ENTRIES <= entries {
        return TOO_MANY_RECORDS;
    }
    0
}

/// The rules for an entry with its type in slash notation: its word, its text, one too many.
fn slashed_fault(book: &[u8], names: &Names, body: &[u8], entries: usize) -> u32 {
    if !has_word(body) {
        return BAD_LAYOUT;
    }
    let fault = text_fault(book, names, type_part(body));
    if fault != 0 {
        return fault;
    }
    if MAX_ENTRIES <= entries {
        return TOO_MANY_RECORDS;
    }
    0
}

/// The rules for a target: its layout, a declared type number, one too many.
fn target_fault(body: &[u8], types: usize, targets: usize) -> u32 {
    if body.len() != 1 {
        return BAD_LAYOUT;
    }
    if types <= wide_byte(body[0]) {
        return UNDECLARED_TYPE;
    }
    if MAX_TARGETS <= targets {
        return TOO_MANY_TARGETS;
    }
    0
}

/// The rules for the record at an offset of the book: the smallest number that it is refused with, or 0.
fn record_fault(
    book: &[u8],
    at: usize,
    names: &Names,
    types: usize,
    entries: usize,
    targets: usize,
) -> u32 {
    if book.len() - at < HEAD {
        return CUT_SHORT;
    }
    let left = book.len() - at - HEAD;
    if left < two_bytes(book, at) {
        return CUT_SHORT;
    }
    let body = body_at(book, at);
    match kind_at(book, at) {
        1 => name_fault(book, names, types, body),
        2 => pair_fault(body, types),
        3 => entry_fault(body, types, entries),
        4 => target_fault(body, types, targets),
        SLASHED => slashed_fault(book, names, body, entries),
        _ => KIND_NOT_LISTED,
    }
}

/// A reader at an offset of the book.
fn reader_at(book: &[u8], at: usize) -> RecordReader<'_> {
    RecordReader { book, at }
}

/// The smallest number that the next record is refused with, or 0.
fn next_fault(r: RecordReader, names: &Names, types: usize, entries: usize, targets: usize) -> u32 {
    record_fault(r.book, r.at, names, types, entries, targets)
}

/// The same for a caller that has the book and the offset.
fn fault_at(
    book: &[u8],
    at: usize,
    names: &Names,
    types: usize,
    entries: usize,
    targets: usize,
) -> u32 {
    next_fault(reader_at(book, at), names, types, entries, targets)
}

/// Takes the next record in: its offset, its pair or its target is kept, or it is refused with a number.
fn take_record(
    book: &[u8],
    names: &mut Names,
    entries: &mut [u16],
    direct: &mut [u64],
    targets: &mut [u8],
    p: Progress,
) -> Result<Progress, u32> {
    let fault = fault_at(book, p.at, names, p.types, p.entries, p.targets);
    if fault != 0 {
        return Err(fault);
    }
    let body = body_at(book, p.at);
    let mut next = p;
    next.at = p.at + HEAD + body.len();
    match kind_at(book, p.at) {
        1 => {
            names.keep(book, p.at, p.types);
            next.types += 1;
        }
        2 => {
            let lower = wide_byte(body[0]);
            direct[lower] = bits::with(direct[lower], body[1]);
        }
        3 | SLASHED => {
            entries[p.entries] = p.at as u16;
            next.entries += 1;
        }
        _ => {
            targets[p.targets] = body[0];
            next.targets += 1;
        }
    }
    Ok(next)
}

/// Reads all records of a book. Of an accepted book the arrays hold where its basic types and entries stand, its pairs, and the type
/// numbers of its targets.
pub fn scan_book(
    book: &[u8],
    names: &mut Names,
    entries: &mut [u16],
    direct: &mut [u64],
    targets: &mut [u8],
) -> Scan {
    if MAX_BOOK < book.len() {
        return Scan::Refused {
            number: BOOK_TOO_LONG,
            value: 0,
        };
    }
    let mut p = Progress {
        at: 0,
        types: 0,
        entries: 0,
        targets: 0,
    };
    while p.at < book.len() {
        match take_record(book, names, entries, direct, targets, p) {
            Ok(next) => p = next,
            Err(number) => {
                return Scan::Refused {
                    number,
                    value: p.at,
                }
            }
        }
    }
    if p.targets == 0 {
        return Scan::Refused {
            number: NO_TARGET,
            value: book.len(),
        };
    }
    Scan::Accepted {
        types: p.types,
        entries: p.entries,
        targets: p.targets,
    }
}

/// Checks a book alone: any bytes, of any length.
#[inline(never)]
pub fn check_book(book: &[u8]) -> BookCheck {
    let mut names = no_names();
    let mut entries = [0u16; MAX_ENTRIES];
    let mut direct = [0u64; MAX_TYPES];
    let mut targets = [0u8; MAX_TARGETS];
    match scan_book(book, &mut names, &mut entries, &mut direct, &mut targets) {
        Scan::Refused { number, value } => BookCheck::Refused { number, value },
        Scan::Accepted { types, entries, .. } => {
            let order = order::close(&direct, types);
            BookCheck::Accepted {
                types,
                entries,
                pairs: order::count_pairs(&order),
            }
        }
    }
}
