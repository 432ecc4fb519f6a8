//! Books in slash notation beside the same books by numbers: 1,024 entries of 1 to 12 simple types, and lines that are read through texts.
use super::typical::typical;
use super::Sample;
use crate::books::{kind_of, record_ranges, slashed_entry, Records};
use crate::random::Random;
use crate::slashes::Tree;

/// A book by numbers, and the same with every type that can be written as a text.
pub struct Twofold {
    pub name: &'static str,
    pub by_numbers: Vec<u8>,
    pub in_slashes: Vec<u8>,
}

/// The numbers of simple types of sixteen entries, but for the last two: most have one to four.
const LENGTHS: [usize; 14] = [1, 2, 1, 3, 2, 1, 4, 2, 1, 3, 1, 2, 3, 4];

/// How many simple types entry number k has. Two of sixteen have five to twelve.
fn length(k: usize) -> usize {
    let round = k / 16 % 4;
    match k % 16 {
        14 => 5 + round,
        15 => 9 + round,
        place => LENGTHS[place],
    }
}

/// A book of 1,024 entries over these names.
fn twofold(name: &'static str, names: &[String]) -> Twofold {
    let mut random = Random::new(5);
    let mut by_numbers = Records::default();
    for name in names {
        by_numbers.basic_type(name.as_bytes());
    }
    by_numbers.pair(1, 0);
    by_numbers.target(0);
    let mut in_slashes = by_numbers.clone();
    for k in 0..1024 {
        let word = format!("w{k:04}");
        let tree = Tree::random(&mut random, names.len(), length(k));
        by_numbers.entry(word.as_bytes(), &tree.simple_types());
        in_slashes.slashed_entry(word.as_bytes(), &tree.text(names));
    }
    Twofold {
        name,
        by_numbers: by_numbers.bytes(),
        in_slashes: in_slashes.bytes(),
    }
}

/// A book of 1,024 entries that have the types of the paper's first book in turn.
fn papers() -> Twofold {
    let types: [&[(u8, i8)]; 9] = [
        &[(0, 0), (1, -1)],
        &[(0, 0), (2, -1), (1, -1)],
        &[(1, 0)],
        &[(3, 0)],
        &[(0, 1), (0, 0)],
        &[(0, 0), (3, -1)],
        &[(2, 0)],
        &[(0, 0)],
        &[(0, 0), (0, -1)],
    ];
    let mut book = Records::default();
    for name in ["o", "p", "w", "u"] {
        book.basic_type(name.as_bytes());
    }
    book.pair(3, 2);
    book.target(0);
    for k in 0..1024 {
        book.entry(format!("w{k:04}").as_bytes(), types[k % 9]);
    }
    let by_numbers = book.bytes();
    Twofold {
        name: "1024 entries, the paper's types",
        in_slashes: rewritten(&by_numbers),
        by_numbers,
    }
}

/// The typical book, the paper's types, and books of 1,024 entries over few short names, over as many names as a book may have, and over names of 15 bytes
/// that differ in the last two.
pub fn twofold_books() -> [Twofold; 5] {
    let named =
        |count: usize, name: fn(usize) -> String| -> Vec<String> { (0..count).map(name).collect() };
    let typical = typical().swap_remove(0).book;
    [
        Twofold {
            name: "typical, 1000 entries",
            in_slashes: rewritten(&typical),
            by_numbers: typical,
        },
        papers(),
        twofold(
            "1024 entries, 6 names",
            &["o", "p", "w", "u", "s", "np"].map(String::from),
        ),
        twofold("1024 entries, 64 names", &named(64, |k| format!("t{k:02}"))),
        twofold(
            "1024 entries, 20 names of 15 bytes",
            &named(20, |k| format!("nameoffifteen{k:02}")),
        ),
    ]
}

/// The book with every type that can be written as a text.
fn rewritten(book: &[u8]) -> Vec<u8> {
    let random = &mut Random::new(6);
    let mut names: Vec<&[u8]> = Vec::new();
    let mut bytes = Vec::new();
    for range in record_ranges(book) {
        let (record, body) = (&book[range.clone()], &book[range.start + 4..range.end]);
        match kind_of(record) {
            1 => names.push(body),
            3 => {
                let (word, part) = body[1..].split_at(body[0] as usize);
                let simples: Vec<(u8, i8)> = part.chunks(2).map(|s| (s[0], s[1] as i8)).collect();
                if let Some(tree) = Tree::of(random, &simples) {
                    bytes.extend(slashed_entry(word, &tree.text(&names)));
                    continue;
                }
            }
            _ => {}
        }
        bytes.extend(record);
    }
    bytes
}

/// 24 words, each with one or two entries of 12 simple types and one behind them that is read: 503 simple types in all.
fn twelves() -> Sample {
    let mut random = Random::new(7);
    let mut book = Records::default();
    for name in ["s", "np", "nameoffifteen00"] {
        book.basic_type(name.as_bytes());
    }
    book.target(0);
    let mut line = Vec::new();
    for k in 0..24 {
        let word = format!("w{k}");
        for _ in 0..if k < 14 { 2 } else { 1 } {
            let tree = Tree::random(&mut random, 3, 12);
            book.entry(word.as_bytes(), &tree.simple_types());
        }
        match k {
            0 => book.entry(word.as_bytes(), &[(0, 0)]),
            _ => book.entry(word.as_bytes(), &[(0, 1), (0, 0)]),
        }
        line.push(word);
    }
    Sample {
        name: "entries of 12, 1 and 2, by numbers, reads".to_string(),
        book: book.bytes(),
        line: line.join(" ").into_bytes(),
    }
}

/// The same line with all types as texts, under another name.
fn in_slashes(sample: &Sample, name: &str) -> Sample {
    Sample {
        name: name.to_string(),
        book: rewritten(&sample.book),
        line: sample.line.clone(),
    }
}

/// Lines that are read through texts. Those of the typical book stand by numbers among the typical lines.
pub fn slashed() -> Vec<Sample> {
    let typical = typical();
    let mut samples = Vec::new();
    for (length, outcome) in [(6, "reads"), (12, "reads"), (12, "none")] {
        let name = format!("typical, {length} words, {outcome}");
        let by_numbers = typical.iter().find(|sample| sample.name == name);
        let by_numbers = by_numbers.expect("a sample of that name");
        let name = format!("typical, {length} words, in slashes, {outcome}");
        samples.push(in_slashes(by_numbers, &name));
    }
    let by_numbers = twelves();
    let texts = in_slashes(&by_numbers, "entries of 12, 1 and 2, in slashes, reads");
    samples.extend([by_numbers, texts]);
    samples
}
