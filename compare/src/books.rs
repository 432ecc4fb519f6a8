//! Writing books record by record, finding their words again, and the books of documents 01 and 000.
use std::ops::Range;

/// A book as a list of records, each with its head and body.
#[derive(Clone, Default)]
pub struct Records {
    pub list: Vec<Vec<u8>>,
}

impl Records {
    pub fn basic_type(&mut self, name: &[u8]) {
        self.list.push(record(1, name));
    }

    pub fn pair(&mut self, lower: u8, upper: u8) {
        self.list.push(record(2, &[lower, upper]));
    }

    pub fn entry(&mut self, word: &[u8], simple_types: &[(u8, i8)]) {
        self.list.push(entry(word, simple_types));
    }

    pub fn slashed_entry(&mut self, word: &[u8], text: &[u8]) {
        self.list.push(slashed_entry(word, text));
    }

    pub fn target(&mut self, target: u8) {
        self.list.push(record(4, &[target]));
    }

    pub fn bytes(&self) -> Vec<u8> {
        self.list.concat()
    }
}

/// A record of any kind and body.
pub fn record(kind: u16, body: &[u8]) -> Vec<u8> {
    let mut bytes = (body.len() as u16).to_le_bytes().to_vec();
    bytes.extend(kind.to_le_bytes());
    bytes.extend(body);
    bytes
}

/// An entry's record; a simple type is a type number and an exponent.
pub fn entry(word: &[u8], simple_types: &[(u8, i8)]) -> Vec<u8> {
    let mut body = vec![word.len() as u8];
    body.extend(word);
    for (basic, exponent) in simple_types {
        body.extend([*basic, *exponent as u8]);
    }
    record(3, &body)
}

/// The record of an entry with its type in slash notation.
pub fn slashed_entry(word: &[u8], text: &[u8]) -> Vec<u8> {
    record(5, &[&[word.len() as u8], word, text].concat())
}

/// The kind of a record.
pub fn kind_of(record: &[u8]) -> u16 {
    u16::from_le_bytes([record[2], record[3]])
}

/// Where the records of a book stand, heads included, as far as they are whole.
pub fn record_ranges(book: &[u8]) -> Vec<Range<usize>> {
    let mut ranges = vec![];
    let mut at = 0;
    while let Some(head) = book.get(at..at + 4) {
        let end = at + 4 + u16::from_le_bytes([head[0], head[1]]) as usize;
        if end > book.len() {
            break;
        }
        ranges.push(at..end);
        at = end;
    }
    ranges
}

/// The same for the records of some kinds.
fn ranges_of_kinds<'a>(
    book: &'a [u8],
    kinds: &'a [u16],
) -> impl Iterator<Item = Range<usize>> + 'a {
    let of_kinds = |range: &Range<usize>| kinds.contains(&kind_of(&book[range.clone()]));
    record_ranges(book).into_iter().filter(of_kinds)
}

/// Where the words of a book's entries stand, as far as its records are whole.
pub fn word_ranges(book: &[u8]) -> Vec<Range<usize>> {
    let word = |record: Range<usize>| {
        let length = *book[record.clone()].get(4)? as usize;
        let word = record.start + 5..record.start + 5 + length;
        Some(word).filter(|word| word.end <= record.end)
    };
    ranges_of_kinds(book, &[3, 5]).filter_map(word).collect()
}

/// Where the targets of a book stand, heads included, as far as its records are whole.
#[cfg(test)]
pub fn target_ranges(book: &[u8]) -> Vec<Range<usize>> {
    ranges_of_kinds(book, &[4]).collect()
}

/// A book written with names: entries as ("fetch", "o p^l").
fn book(names: &[&str], pairs: &[(&str, &str)], entries: &[(&str, &str)], target: &str) -> Records {
    let number = |name: &str| names.iter().position(|n| *n == name).unwrap() as u8;
    let simple = |text: &str| match text.split_once('^') {
        Some((name, "l")) => (number(name), -1),
        Some((name, _)) => (number(name), 1),
        None => (number(text), 0),
    };
    let mut records = Records::default();
    for name in names {
        records.basic_type(name.as_bytes());
    }
    for (lower, upper) in pairs {
        records.pair(number(lower), number(upper));
    }
    for (word, simple_types) in entries {
        let simple_types: Vec<(u8, i8)> = simple_types.split_whitespace().map(simple).collect();
        records.entry(word.as_bytes(), &simple_types);
    }
    records.target(number(target));
    records
}

const TRY_ENTRIES: [(&str, &str); 10] = [
    ("fetch", "o p^l"),
    ("fetch", "o w^l p^l"),
    ("bed4", "p"),
    ("ward7", "u"),
    ("urgently", "o^r o"),
    ("admit", "o u^l"),
    ("site", "w"),
    ("go", "o"),
    ("please", "o o^l"),
    ("log", "k o^l"),
];

/// Document 01, "A book to try": the first book.
pub fn first_book() -> Records {
    let names = ["o", "p", "w", "u"];
    book(&names, &[("u", "w")], &TRY_ENTRIES[..9], "o")
}

/// Document 01, "A book to try": the second book.
pub fn second_book() -> Records {
    let names = ["o", "p", "w", "u", "k"];
    book(&names, &[("u", "w")], &TRY_ENTRIES, "k")
}

/// Document 000, example 4.3.
pub fn example_4_3() -> Records {
    let names = ["pi", "pi1", "s", "s1", "q1", "i", "j", "o"];
    let pairs = [("pi1", "pi"), ("i", "j"), ("s1", "s")];
    let entries = [
        ("I", "pi1"),
        ("will", "pi^r s1 j^l"),
        ("will", "q1 j^l pi^l"),
        ("meet", "i o^l"),
        ("him", "o"),
    ];
    book(&names, &pairs, &entries, "s")
}

/// Document 000, example 4.4. The name with a bar gets "bar" behind it.
pub fn example_4_4() -> Records {
    let names = [
        "pi", "pi3", "s", "s2", "q", "q2", "i", "o", "n", "nbar", "jbar",
    ];
    let pairs = [
        ("pi3", "pi"),
        ("s2", "s"),
        ("q2", "q"),
        ("q", "s"),
        ("jbar", "pi3"),
        ("n", "nbar"),
        ("nbar", "o"),
    ];
    let entries = [
        ("did", "q2 i^l pi^l"),
        ("did", "pi^r s2 i^l"),
        ("he", "pi3"),
        ("give", "i o^l"),
        ("give", "i nbar^l o^l"),
        ("books", "n"),
        ("to", "i^r i o^l"),
        ("to", "jbar i^l"),
        ("her", "o"),
    ];
    book(&names, &pairs, &entries, "s")
}

/// Document 000, example 4.5.
pub fn example_4_5() -> Records {
    let names = ["np", "s", "pp", "n"];
    let entries = [
        ("Kim", "np"),
        ("mailed", "np^r s pp^l np^l"),
        ("mailed", "np^r s np^l"),
        ("the", "np n^l"),
        ("letter", "n pp^l"),
        ("letter", "n"),
        ("to", "pp np^l"),
        ("Sandy", "np"),
    ];
    book(&names, &[], &entries, "s")
}
