//! Batches of lines by the sentences of document 02's requests 2.2 and 2.4,
//! worked out by hand, for all three readers.

use crate::books::{first_book, Records};
use crate::readers::{Reader, INDEPENDENT, LIBRARY, TWIN};
use crate::types::Refusal;

/// The number of lines with the answers, or a refusal.
type Outcome = Result<(u64, Vec<u16>), Refusal>;

const UNTOUCHED: u16 = 0xbeef;

const MOST_BYTES: usize = 65_535;

/// Enough for each batch here.
const AMPLE: usize = 12_000;

/// The parts of "go", "fetch bed4" and of a line without a reading.
const GO: [u16; 7] = [6, 0, 0, 1, 7, 1, 1];
const FETCH_BED4: [u16; 10] = [9, 0, 0, 2, 0, 2, 3, 1, 3, 2];
const NONE: [u16; 3] = [2, 15, 0];

/// What all readers say of a batch.
fn read_with(book: &[u8], lines: &[u8], lent: usize) -> Outcome {
    let [outcome, others @ ..] =
        [LIBRARY, INDEPENDENT, TWIN].map(|reader| read_by(&reader, book, lines, lent));
    assert_eq!([outcome.clone(), outcome.clone()], others);
    outcome
}

/// Reads with the given number of values lent and checks what must stay.
fn read_by(reader: &Reader, book: &[u8], lines: &[u8], lent: usize) -> Outcome {
    let mut answers = vec![UNTOUCHED; lent];
    let outcome = (reader.read_batch)(book, lines, &mut answers);
    let mut used = 0;
    for _ in 0..outcome.unwrap_or(0) {
        used += 1 + answers[used] as usize;
    }
    assert!(answers[used..].iter().all(|value| *value == UNTOUCHED));
    answers.truncate(used);
    Ok((outcome?, answers))
}

/// What all readers say of a batch with the first book.
fn read(lines: &[u8], lent: usize) -> Outcome {
    read_with(&first_book().bytes(), lines, lent)
}

/// So many lines, and the parts one after another.
fn answered(lines: u64, parts: &[&[u16]]) -> Outcome {
    Ok((lines, parts.concat()))
}

#[test]
fn no_lines() {
    assert_eq!(read(b"", 0), answered(0, &[]));
    assert_eq!(read(b"", 5), answered(0, &[]));
    assert_eq!(read_with(b"", b"", 5), Err((10, 0)));
}

#[test]
fn one_line() {
    assert_eq!(read(b"go\n", AMPLE), answered(1, &[&GO]));
    assert_eq!(read(b"\n", AMPLE), answered(1, &[&NONE]));
    assert_eq!(read(b"admit site\n", AMPLE), answered(1, &[&NONE]));
}

#[test]
fn answers_stand_one_after_another() {
    let lines = b"go\nfetch bed4\nadmit site\n\n  GO \nfetch bed4\n";
    let parts: [&[u16]; 6] = [&GO, &FETCH_BED4, &NONE, &NONE, &GO, &FETCH_BED4];
    assert_eq!(read(lines, AMPLE), answered(6, &parts));
}

#[test]
fn up_to_32_lines() {
    let go = |lines| b"go\n".repeat(lines);
    assert_eq!(read(&go(32), AMPLE), answered(32, &[&GO[..]; 32]));
    assert_eq!(read(&go(33), AMPLE), Err((17, 0)));
    assert_eq!(read(&[10; 32], AMPLE), answered(32, &[&NONE[..]; 32]));
    assert_eq!(read(&[10; 33], AMPLE), Err((17, 0)));
    assert_eq!(read(&[10; 300], AMPLE), Err((17, 0)));
}

/// A batch of so many bytes: spaces, and the end.
fn long(bytes: usize, end: &[u8]) -> Vec<u8> {
    [&vec![b' '; bytes - end.len()], end].concat()
}

#[test]
fn up_to_65_535_bytes() {
    let read_long = |bytes, end| read(&long(bytes, end), AMPLE);
    for bytes in [65_534, 65_535] {
        assert_eq!(read_long(bytes, b"go\n"), answered(1, &[&GO]));
        assert_eq!(read_long(bytes, b"\ngo\n"), answered(2, &[&NONE, &GO]));
    }
    for bytes in [65_536, 65_537, 70_000, 131_072] {
        assert_eq!(read_long(bytes, b"go\n"), Err((17, 0)));
        assert_eq!(read_long(bytes, b"\ngo\n"), Err((17, 0)));
    }
}

#[test]
fn great_offsets() {
    let last = MOST_BYTES as u16 - 2;
    for (end, number) in [(b"x\n", 13), (b"\t\n", 11)] {
        let outcome = answered(1, &[&[2, number, last]]);
        assert_eq!(read(&long(MOST_BYTES, end), AMPLE), outcome);
    }
}

#[test]
fn each_line_is_closed() {
    for lines in ["go", " ", "go\ngo", "\ngo", "go\n ", "go\n\ngo\r"] {
        assert_eq!(read(lines.as_bytes(), AMPLE), Err((17, 0)), "{lines:?}");
    }
}

#[test]
fn byte_10_alone_closes() {
    let outcome = answered(2, &[&[2, 11, 2], &[2, 11, 2]]);
    assert_eq!(read(b"go\r\ngo\0go\n", AMPLE), outcome);
}

/// The first book with a word of 60 simple types.
fn heavy_book() -> Vec<u8> {
    let mut book = first_book();
    for _ in 0..5 {
        book.entry(b"x", &[(0, 0); 12]);
    }
    book.bytes()
}

#[test]
fn each_refusal_with_the_offset_in_its_line() {
    let cases: [(&str, [u16; 3]); 6] = [
        ("go nobody\t", [2, 11, 9]),
        ("nobody wwwwwwwwwwwwwwwwwwwwwwwwwwwwwwww", [2, 12, 7]),
        (
            "go go go go go go go go go go go go go go go go go go go go go go go go go",
            [2, 12, 72],
        ),
        ("  go nobody", [2, 13, 5]),
        ("x x x x x x x x x", [2, 14, 0]),
        ("go go", NONE),
    ];
    let mut lines = vec![];
    let mut parts: Vec<&[u16]> = vec![];
    for (line, part) in &cases {
        let alone = [line.as_bytes(), b"\n"].concat();
        let outcome = read_with(&heavy_book(), &alone, AMPLE);
        assert_eq!(outcome, answered(1, &[part]), "{line}");
        lines.extend([&alone[..], b"go\n"].concat());
        parts.extend([&part[..], &GO]);
    }
    let outcome = read_with(&heavy_book(), &lines, AMPLE);
    assert_eq!(outcome, answered(12, &parts));
}

#[test]
fn buffers_of_every_length() {
    let lines = b"go\nfetch bed4\n\nadmit site\nnobody\n";
    let parts: [&[u16]; 5] = [&GO, &FETCH_BED4, &NONE, &NONE, &[2, 13, 0]];
    // 7 + 10 + 3 + 3 + 3 values.
    for lent in 0..26 {
        assert_eq!(read(lines, lent), Err((18, 26)));
    }
    for lent in 26..60 {
        assert_eq!(read(lines, lent), answered(5, &parts));
    }
}

/// The book is the first one with a byte more, a record's head cut short.
#[test]
fn bad_book_after_17_and_before_18() {
    let good = first_book().bytes();
    let bad = [&good[..], b"\x09"].concat();
    let cut_short = Err((2, good.len() as u64));
    for lent in [0, 1, AMPLE] {
        for lines in [&b"go\n"[..], b"", b"\n\n", &[10; 32]] {
            assert_eq!(read_with(&bad, lines, lent), cut_short);
        }
        for lines in [&b"go"[..], b"go\n ", &[10; 33], &long(65_536, b"\n")] {
            assert_eq!(read_with(&bad, lines, lent), Err((17, 0)));
        }
    }
    assert_eq!(read_with(&[0; 65_536], b"go\n", 0), Err((1, 0)));
    assert_eq!(read_with(&[0; 65_536], b"go", 0), Err((17, 0)));
}

#[test]
fn refusal_17_before_18() {
    for lines in [&b"go"[..], &[10; 33], &long(65_536, b"\n")] {
        assert_eq!(read(lines, 0), Err((17, 0)));
    }
}

/// 32 lines of 24 words and 287 simple types, o and o^r by turns: each o is linked to the o^r behind it, and the last is left.
#[test]
fn longest_answers() {
    let six = [(0, 0), (0, 1)].repeat(6);
    let mut book = Records::default();
    book.basic_type(b"o");
    book.target(0);
    book.entry(b"last", &six[..11]);
    book.entry(b"w", &six);
    let line = ["w ".repeat(23), "last\n".to_string()].concat();
    let mut part = vec![1 + 3 + 24 + 287, 0, 0, 24];
    part.extend([1; 23]);
    part.extend([0, 287]);
    part.extend((1..=143).flat_map(|link| [2 * link, 2 * link - 1]));
    part.push(287);
    let lines = line.repeat(32).into_bytes();
    let needed = 32 * part.len();
    let outcome = answered(32, &vec![&part[..]; 32]);
    assert_eq!(read_with(&book.bytes(), &lines, needed), outcome);
    let short = read_with(&book.bytes(), &lines, needed - 1);
    assert_eq!(short, Err((18, needed as u64)));
}

/// The first book with targets p and w behind its own: "bed4" is read for the first of them, "ward7" and "site" for the second.
#[test]
fn lines_of_different_targets() {
    let mut book = first_book();
    book.target(1);
    book.target(2);
    let lines = b"ward7\ngo\nbed4\nsite\nadmit site\nfetch bed4\nbed4\n";
    let bed4: [u16; 7] = [6, 0, 1, 1, 2, 1, 1];
    let (ward7, site) = ([6, 0, 2, 1, 3, 1, 1], [6, 0, 2, 1, 6, 1, 1]);
    let parts: [&[u16]; 7] = [&ward7, &GO, &bed4, &site, &NONE, &FETCH_BED4, &bed4];
    let book = book.bytes();
    // 5 times 7, 3 and 10 values.
    assert_eq!(read_with(&book, lines, 48), answered(7, &parts));
    assert_eq!(read_with(&book, lines, 47), Err((18, 48)));
}

/// The ninth target is refused like any bad record: after 17 and before 18.
#[test]
fn ninth_target_of_a_batch() {
    let mut book = first_book();
    for target in 0..7 {
        book.target(target % 4);
    }
    let offset = book.bytes().len() as u64;
    assert_eq!(read_with(&book.bytes(), b"go\n", 7), answered(1, &[&GO]));
    book.target(0);
    let book = book.bytes();
    assert_eq!(read_with(&book, b"go\n", 0), Err((8, offset)));
    assert_eq!(read_with(&book, b"go", 0), Err((17, 0)));
}
