//! The basic types of a book by name: where their records stand, threaded by keys of their names.
use super::book::{body_at, wide_byte, wide_number};
use super::compare;
use super::figures::limits::MAX_TYPES;

/// How many keys there are.
const KEYS: usize = 64;

/// What a thread ends with: no basic type has this number.
const NO_TYPE: u8 = MAX_TYPES as u8;

/// Where the records of basic types stand, for each the next one of its key, and for each key the first.
pub struct Names {
    pub offsets: [u16; MAX_TYPES],
    nexts: [u8; MAX_TYPES],
    heads: [u8; KEYS],
}

/// The key of a name, which has a byte or more: the last two count, or the first for both, and the length.
#[inline]
fn key_of(name: &[u8]) -> usize {
    let last = name.len() - 1;
    let before = last.saturating_sub(1);
    (7 * wide_byte(name[before]) + wide_byte(name[last]) + 31 * name.len()) % KEYS
}

/// The names of a book of which nothing has been read.
pub fn no_names() -> Names {
    Names {
        offsets: [0; MAX_TYPES],
        nexts: [NO_TYPE; MAX_TYPES],
        heads: [NO_TYPE; KEYS],
    }
}

impl Names {
    /// Keeps basic type number `number`, whose record stands at an offset.
    pub fn keep(&mut self, book: &[u8], at: usize, number: usize) {
        let key = key_of(body_at(book, at));
        self.offsets[number] = at as u16;
        self.nexts[number] = self.heads[key];
        self.heads[key] = number as u8;
    }

    /// The number of the basic type of a name, or `NO_TYPE`.
    fn find(&self, book: &[u8], name: &[u8]) -> u8 {
        let mut number = self.heads[key_of(name)];
        while number != NO_TYPE {
            let at = wide_number(self.offsets[wide_byte(number)]);
            if compare::same(name, body_at(book, at)) {
                return number;
            }
            number = self.nexts[wide_byte(number)];
        }
        NO_TYPE
    }

    /// The number of the basic type of a name, where there is one.
    pub fn number_of(&self, book: &[u8], name: &[u8]) -> Option<u8> {
        Some(self.find(book, name)).filter(|&number| number != NO_TYPE)
    }
}
