//! Cases on both sides of each bound of document 01.

use super::ambiguous::{cut, Small, TypeString, Types};
use super::{joined, lend, targets, Case, AMPLE};
use crate::books::{first_book, Records};
use crate::random::Random;

/// A book and a line.
type Made = (Vec<u8>, Vec<u8>);

/// Bounds that take small books and lines to meet.
pub fn small_borders(random: &mut Random) -> Case {
    let makers = [
        basic_types,
        name_bytes,
        word_bytes,
        entry_length,
        words_of_line,
        exponents,
        far_exponents_meet,
        empties,
        targets_of_book,
    ];
    if random.chance(1, 10) {
        return values_lent(random);
    }
    let (book, line) = random.pick(&makers)(random);
    lend(random, "small border", book, line)
}

/// Bounds that take big books or lines to meet.
pub fn big_borders(random: &mut Random) -> Case {
    let makers = [
        entries_of_book,
        entries_of_book,
        bytes_of_book,
        bytes_of_book,
        many_empty_entries,
        simple_types_of_line,
        one_dense_type,
        long_line,
        long_text,
    ];
    let (book, line) = random.pick(&makers)(random);
    lend(random, "big border", book, line)
}

/// The bound, or one more.
fn about(random: &mut Random, bound: usize) -> usize {
    bound + random.below(2)
}

/// The first book, often with more targets.
pub fn try_book(random: &mut Random) -> Records {
    let mut records = first_book();
    targets::add(random, &mut records);
    records
}

/// 64 or 65 basic types with many pairs, chains and cycles among them.
fn basic_types(random: &mut Random) -> Made {
    let count = about(random, 64);
    let mut records = Records::default();
    for number in 0..count {
        records.basic_type(format!("t{number}").as_bytes());
    }
    let step = *random.pick(&[1, 3, 32]);
    for lower in 0..random.below(65) as u8 {
        records.pair(lower, (lower + step) % 64);
    }
    for _ in 0..random.below(40) {
        records.pair(random.below(64) as u8, random.below(64) as u8);
    }
    let (x, y) = (random.below(64) as u8, random.below(64) as u8);
    records.entry(b"a", &[(x, 0)]);
    records.entry(b"a", &[(63, 0), (x, -1)]);
    records.entry(b"b", &[(y, 1), (63, 0)]);
    records.entry(b"b", &[(y, 0)]);
    add_targets(&mut records, &targets::any(random, 64));
    (
        records.bytes(),
        random.pick(&["a", "a b", "a a b"]).as_bytes().to_vec(),
    )
}

/// A name of 15 or 16 bytes.
fn name_bytes(random: &mut Random) -> Made {
    let mut records = try_book(random);
    let at = random.below(records.list.len() + 1);
    let mut more = Records::default();
    more.basic_type(&vec![b'n'; about(random, 15)]);
    records.list.insert(at, more.list.remove(0));
    (records.bytes(), b"go urgently".to_vec())
}

/// Words of 31 or 32 bytes in book and line, and the two for each other.
fn word_bytes(random: &mut Random) -> Made {
    let mut records = try_book(random);
    let word = vec![b'w'; about(random, 31)];
    if random.chance(2, 3) {
        records.entry(&word[..31], &[(0, 0)]);
    } else {
        records.entry(&word, &[(0, 0)]);
    }
    let line = joined(random, &[b"please".to_vec(), word]);
    (records.bytes(), line)
}

/// An entry of 12 or 13 simple types that is read alone.
fn entry_length(random: &mut Random) -> Made {
    let mut records = try_book(random);
    let mut simple_types = vec![(0, 0)];
    while simple_types.len() < 11 {
        simple_types.extend([(1, -1), (1, 0)]);
    }
    let length = about(random, 12);
    simple_types.resize(length, (0, 1));
    records.entry(b"long", &simple_types);
    records.entry(b"more", &[(0, 0)]);
    let line = *random.pick(&["long", "long more", "go long", "long long"]);
    (records.bytes(), line.as_bytes().to_vec())
}

/// So many words that read against the first book.
pub fn words_that_read(random: &mut Random, count: usize) -> Vec<Vec<u8>> {
    let mut words = vec![b"please".to_vec(); random.below(count)];
    words.push(b"go".to_vec());
    words.resize(count, b"urgently".to_vec());
    words
}

/// A line of 24 or 25 words.
fn words_of_line(random: &mut Random) -> Made {
    let count = about(random, 24);
    let words = words_that_read(random, count);
    let line = joined(random, &words);
    (try_book(random).bytes(), line)
}

/// Exponents about -8 and 8, with their neighbours.
fn exponents(random: &mut Random) -> Made {
    let exponent = *random.pick(&[-9, -8, 8, 9, -128, 127]);
    let mut records = try_book(random);
    records.entry(b"x", &[(0, 0), (3, exponent)]);
    records.entry(b"y", &[(2, -7)]);
    records.entry(b"y", &[(3, 7)]);
    let line = *random.pick(&["x y", "y x", "x", "go"]);
    (records.bytes(), line.as_bytes().to_vec())
}

/// Links between exponents -8 and -7, or 7 and 8, in order and against it.
fn far_exponents_meet(random: &mut Random) -> Made {
    let z = *random.pick(&[-8, -7, 6, 7]);
    let (a, b) = *random.pick(&[(2, 3), (3, 2), (2, 2)]);
    let mut records = try_book(random);
    records.entry(b"x", &[(0, 0), (a, z)]);
    records.entry(b"y", &[(b, z + 1)]);
    let line = *random.pick(&["x y", "x y y", "y x", "please x y"]);
    (records.bytes(), line.as_bytes().to_vec())
}

/// Empty books, lines and entries.
fn empties(random: &mut Random) -> Made {
    let mut records = match random.below(3) {
        0 => Records::default(),
        1 => try_book(random),
        _ => {
            let mut records = Records::default();
            records.basic_type(b"o");
            add_targets(&mut records, &targets::any(random, 1));
            records
        }
    };
    if random.chance(1, 2) {
        records.entry(b"e", &[]);
        records.entry(b"e", &[]);
    }
    let line = *random.pick(&["", " ", "   ", "e", "e e", "e go e", "go"]);
    (records.bytes(), line.as_bytes().to_vec())
}

/// Eight or nine targets, seldom ten, and a line that is read for one of them or for none.
fn targets_of_book(random: &mut Random) -> Made {
    let count = about(random, 8) + random.below(8) / 7;
    let mut records = first_book();
    targets::add_some(random, &mut records, count - 1);
    let line = *random.pick(&["go", "bed4", "ward7", "site", "fetch bed4", "go go"]);
    (records.bytes(), line.as_bytes().to_vec())
}

/// A line that is read, with each number of values lent about its answer's.
fn values_lent(random: &mut Random) -> Case {
    let (line, takes) = *random.pick(&[("go", 5), ("fetch bed4", 8), ("go urgently", 8)]);
    let lent = *random.pick(&[0, 1, 2, takes - 1, takes, takes + 1, AMPLE, 70_000]);
    Case {
        kind: "small border",
        book: first_book().bytes(),
        line: line.as_bytes().to_vec(),
        lent,
        plain: None,
    }
}

/// A word for a number.
fn numbered(number: usize) -> Vec<u8> {
    format!("w{number}").into_bytes()
}

/// The records of types; entries and targets are still to come.
fn begun(types: &Types) -> Records {
    let mut records = Records::default();
    for number in 0..types.count {
        records.basic_type(format!("t{number}").as_bytes());
    }
    for (lower, upper) in &types.pairs {
        records.pair(*lower, *upper);
    }
    records
}

/// Adds these targets at the end.
fn add_targets(records: &mut Records, targets: &[u8]) {
    for target in targets {
        records.target(*target);
    }
}

/// 1,024 entries and perhaps one more, which may have other faults too.
fn entries_of_book(random: &mut Random) -> Made {
    let types = Types::new(random, 6);
    let mut records = begun(&types);
    let words = 60 + random.below(100);
    for number in 0..1_024 {
        records.entry(&numbered(number % words), &types.shaped(random));
    }
    match random.below(4) {
        0 => {
            let more: [&[(u8, i8)]; 4] = [&[(0, 8)], &[], &[(0, 9)], &[(200, 9)]];
            records.entry(b"w0", more[random.below(4)]);
        }
        1 => {
            let more = ["t0", "t0/t0", "t0/t0/t0", "nobody", "(((((((t0"];
            records.slashed_entry(b"w0", random.pick(&more).as_bytes());
        }
        _ => {}
    }
    add_targets(&mut records, &types.targets);
    let line: Vec<Vec<u8>> = (0..random.below(20))
        .map(|_| numbered(random.below(words)))
        .collect();
    let line = joined(random, &line);
    (records.bytes(), line)
}

/// A word with nearly all entries of a book, most of them empty.
fn many_empty_entries(random: &mut Random) -> Made {
    let types = Types::new(random, 3);
    let mut records = begun(&types);
    let full = random.below(1_024);
    for number in 0..1_024 {
        match number == full || random.chance(1, 200) {
            true => records.entry(b"w", &types.shaped(random)),
            false => records.entry(b"w", &[]),
        }
    }
    add_targets(&mut records, &types.targets);
    let line = vec![b"w".to_vec(); 1 + random.below(24)];
    let line = joined(random, &line);
    (records.bytes(), line)
}

/// A book of 65,535 or 65,536 bytes, filled up with pairs and one entry.
fn bytes_of_book(random: &mut Random) -> Made {
    let small = Small::new(random);
    let mut records = small.records(random);
    let length = about(random, 65_535);
    let mut left = length - records.bytes().len();
    while left >= 12 {
        records.pair(0, random.below(small.types.count) as u8);
        left -= 6;
    }
    records.entry(&vec![b'f'; left - 5], &[]);
    let mut book = records.bytes();
    if random.chance(1, 3) {
        let at = random.below(book.len());
        book[at] ^= 1 << random.below(8);
    }
    (book, joined(random, &small.words))
}

/// A readable line of 24 words whose entries have exactly 512 or 513 simple
/// types, often with eight targets.
fn simple_types_of_line(random: &mut Random) -> Made {
    let mut types = Types::new(random, 6);
    if random.chance(1, 2) {
        let target = types.any(random);
        types.targets.resize(8, target);
    }
    let links = 12 + random.below(60);
    let string = types.readable(random, links);
    let mut entries: Vec<(Vec<u8>, TypeString)> = vec![];
    for (place, piece) in cut(random, &string, 24).into_iter().enumerate() {
        let piece = piece[..piece.len().min(12)].to_vec();
        entries.push((numbered(place), piece));
    }
    let mut left = about(random, 512) - count_of(&entries);
    while left > 0 {
        let mut simple_types = match random.chance(1, 2) {
            true => types.shaped(random),
            false => types.readable(random, 5),
        };
        simple_types.truncate(left);
        left -= simple_types.len();
        entries.push((numbered(random.below(24)), simple_types));
    }
    random.shuffle(&mut entries);
    let mut records = begun(&types);
    for (word, simple_types) in &entries {
        records.entry(word, simple_types);
    }
    add_targets(&mut records, &types.targets);
    let line: Vec<Vec<u8>> = (0..24).map(numbered).collect();
    let line = joined(random, &line);
    (records.bytes(), line)
}

fn count_of(entries: &[(Vec<u8>, TypeString)]) -> usize {
    entries.iter().map(|entry| entry.1.len()).sum()
}

/// Lines in which nearly everything contracts: one type, or a cycle of types,
/// at exponents 0 and 1.
fn one_dense_type(random: &mut Random) -> Made {
    let mut records = Records::default();
    for number in 0..64 {
        records.basic_type(format!("t{number}").as_bytes());
        records.pair(number.max(1) - 1, number);
    }
    records.pair(63, 0);
    let words = 16 + random.below(9);
    let ones_first = random.chance(1, 2);
    let most = *random.pick(&[1, 2, 12]);
    let mut left = 512;
    while left > 0 {
        let length = (1 + random.below(most)).min(left);
        let simple_types: TypeString = (0..length)
            .map(|_| match ones_first {
                true => (random.below(64) as u8, i8::from(left > 256)),
                false => (random.below(64) as u8, random.below(2) as i8),
            })
            .collect();
        left -= length;
        records.entry(&numbered(random.below(words)), &simple_types);
    }
    for number in 0..words {
        records.entry(&numbered(number), &[]);
    }
    add_targets(&mut records, &targets::any(random, 64));
    let line: Vec<Vec<u8>> = (0..words).map(numbered).collect();
    let line = joined(random, &line);
    (records.bytes(), line)
}

/// A text of many thousand bytes, of which the last brackets, if any, decide between 19 and 20.
fn long_text(random: &mut Random) -> Made {
    let mut records = try_book(random);
    let length = 10_000 + random.below(20_000);
    let text = match random.below(5) {
        0 => vec![b'o'; length],
        1 => b"o/".repeat(length),
        2 => b"()".repeat(length),
        3 => [b")".repeat(length), b"(".repeat(length + 6)].concat(),
        _ => [b")".repeat(length), b"(".repeat(length + 7)].concat(),
    };
    records.slashed_entry(b"long", &text);
    (records.bytes(), b"go".to_vec())
}

/// A line with so many spaces that offsets pass 65,535.
fn long_line(random: &mut Random) -> Made {
    let mut line = vec![b' '; 65_530 + random.below(10)];
    let end = match random.below(6) {
        0 => "go".to_string(),
        1 => "unknown go".to_string(),
        2 => "go unknown".to_string(),
        3 => "go\n".to_string(),
        4 => "go ".repeat(25),
        _ => "w".repeat(32),
    };
    line.extend(end.as_bytes());
    (try_book(random).bytes(), line)
}
