//! A type in slash notation: the rules for its text, how many simple types it has, and these written out.
//! The rules walk over a text and write nothing: reading it for them as for its type takes a fifth more instructions, and a twin is to be
//! a good measure.
use super::book::{is_letter, is_name_byte};
use super::figures::limits::{MAX_ENTRY_SIMPLES, MAX_NAME, MAX_OPEN};
use super::figures::refusals::{BRACKETS_TOO_DEEP, NOT_A_TYPE, TYPE_TOO_LONG, UNDECLARED_TYPE};
use super::names::Names;

/// A type number and an exponent, a byte each, as in an entry of kind 3.
pub type Simple = [u8; 2];

/// What moves an exponent one down and one up.
const DOWN: u8 = 255;
const UP: u8 = 1;

/// The names of a text: how many there are, and whether all are declared.
struct Found {
    count: usize,
    declared: bool,
}

/// Whether up to some byte opening brackets outnumber closing ones by more than `MAX_OPEN`.
fn too_deep(text: &[u8]) -> bool {
    let mut open = 0;
    for &byte in text {
        if byte == b'(' {
            open += 1;
            if MAX_OPEN < open {
                return true;
            }
        } else if byte == b')' {
            open -= 1;
        }
    }
    false
}

fn is_slash(byte: u8) -> bool {
    matches!(byte, b'/' | b'\\')
}

/// Whether this byte stands at a place of the text.
fn stands(text: &[u8], at: usize, byte: u8) -> bool {
    at < text.len() && text[at] == byte
}

/// Where the name at a place ends.
fn name_end(text: &[u8], at: usize) -> usize {
    let mut end = at;
    while end < text.len() && is_name_byte(text[end]) {
        end += 1;
    }
    end
}

/// Where the type at a place ends, if there is one and no more than so many brackets are opened in it. Its names are counted.
fn walk_type(
    book: &[u8],
    names: &Names,
    text: &[u8],
    at: usize,
    left: isize,
    found: &mut Found,
) -> Option<usize> {
    let end = walk_unit(book, names, text, at, left, found)?;
    if end < text.len() && is_slash(text[end]) {
        return walk_unit(book, names, text, end + 1, left, found);
    }
    Some(end)
}

/// The same for a unit.
fn walk_unit(
    book: &[u8],
    names: &Names,
    text: &[u8],
    at: usize,
    left: isize,
    found: &mut Found,
) -> Option<usize> {
    if stands(text, at, b'(') {
        if left == 0 {
            return None;
        }
        let end = walk_type(book, names, text, at + 1, left - 1, found)?;
        return if stands(text, end, b')') {
            Some(end + 1)
        } else {
            None
        };
    }
    let end = name_end(text, at);
    let name = &text[at..end];
    if name.is_empty() || MAX_NAME < name.len() || !is_letter(name[0]) {
        return None;
    }
    found.count += 1;
    found.declared = found.declared && names.number_of(book, name).is_some();
    Some(end)
}

/// The rules for a text: brackets, grammar, declared names, one simple type too many. Brackets need be counted only where the walk fails.
/// The exponents of a text are never too far.
pub fn text_fault(book: &[u8], names: &Names, text: &[u8]) -> u32 {
    let mut found = Found {
        count: 0,
        declared: true,
    };
    if walk_type(book, names, text, 0, MAX_OPEN, &mut found) != Some(text.len()) {
        return if too_deep(text) {
            BRACKETS_TOO_DEEP
        } else {
            NOT_A_TYPE
        };
    }
    if !found.declared {
        return UNDECLARED_TYPE;
    }
    if MAX_ENTRY_SIMPLES < found.count {
        return TYPE_TOO_LONG;
    }
    0
}

/// How many simple types the text of a type has: one for each name.
pub fn count_names(text: &[u8]) -> usize {
    let mut count = 0;
    let mut inside = false;
    for &byte in text {
        let in_name = is_name_byte(byte);
        count += usize::from(in_name && !inside);
        inside = in_name;
    }
    count
}

/// Turns a string into its adjoint.
fn adjoin(string: &mut [Simple], step: u8) {
    string.reverse();
    for simple in string {
        simple[1] = simple[1].wrapping_add(step);
    }
}

/// Writes the type at a place of a text from `from` on: where the text of it ends, and where its simple types do.
fn put_type(
    book: &[u8],
    names: &Names,
    text: &[u8],
    at: usize,
    simples: &mut [Simple],
    from: usize,
) -> (usize, usize) {
    let (slash, middle) = put_unit(book, names, text, at, simples, from);
    if text.len() <= slash || !is_slash(text[slash]) {
        return (slash, middle);
    }
    let (end, to) = put_unit(book, names, text, slash + 1, simples, middle);
    if text[slash] == b'/' {
        adjoin(&mut simples[middle..to], DOWN);
    } else {
        adjoin(&mut simples[from..middle], UP);
    }
    (end, to)
}

/// The same for a unit.
fn put_unit(
    book: &[u8],
    names: &Names,
    text: &[u8],
    at: usize,
    simples: &mut [Simple],
    from: usize,
) -> (usize, usize) {
    if text[at] == b'(' {
        let (end, to) = put_type(book, names, text, at + 1, simples, from);
        return (end + 1, to);
    }
    let end = name_end(text, at);
    if let Some(number) = names.number_of(book, &text[at..end]) {
        simples[from] = [number, 0];
    }
    (end, from + 1)
}

/// Writes the simple types of a text that breaks no rule, and returns how many they are.
pub fn write_type(book: &[u8], names: &Names, text: &[u8], simples: &mut [Simple]) -> usize {
    let (_, count) = put_type(book, names, text, 0, simples, 0);
    count
}
