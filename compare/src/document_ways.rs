//! Words in the way by the sentences of document 02's request 2.6, worked out by hand, for all three readers.

use crate::books::{first_book, record, second_book, Records};
use crate::document_cases::READERS;
use crate::types::{InTheWay, Refusal};

/// What each lent value holds before a line is read.
const BEFORE: u16 = 0xbeef;

/// What all readers say of a line with the words in its way.
fn in_the_way(book: &Records, line: &str, lent: usize) -> (InTheWay, Vec<u16>) {
    let [told, others @ ..] = READERS.map(|reader| {
        let mut answer = vec![BEFORE; lent];
        let told = (reader.words_in_the_way)(&book.bytes(), line.as_bytes(), &mut answer);
        (told, answer)
    });
    assert_eq!([told.clone(), told.clone()], others);
    told
}

/// The line is refused, whatever is lent, and the buffer stays as it was.
fn expect_refused(book: &Records, line: &str, refusal: Refusal, number: Option<u32>) {
    for lent in [0, 1, 8, 600] {
        let expected = (Err((refusal, number)), vec![BEFORE; lent]);
        assert_eq!(in_the_way(book, line, lent), expected, "{line:?}");
    }
}

/// The lines are refused with 15 and 0, each with its number beside. The last digit of a number stands for the first word.
fn expect_numbers(book: &Records, lines: &[(&str, u32)]) {
    for (line, number) in lines {
        expect_refused(book, line, (15, 0), Some(*number));
    }
}

/// The line has this answer; values behind it stay, and fewer values give 16 and the values needed.
fn expect_answer(book: &Records, line: &str, answer: &[u16]) {
    let needed = answer.len();
    for more in [0, 1, 5] {
        let buffer = [answer, &vec![BEFORE; more]].concat();
        let expected = (Ok(needed as u64), buffer);
        assert_eq!(in_the_way(book, line, needed + more), expected, "{line:?}");
    }
    for lent in 0..needed {
        let expected = (Err(((16, needed as u64), None)), vec![BEFORE; lent]);
        assert_eq!(in_the_way(book, line, lent), expected, "{line:?}");
    }
}

/// The first book, whose target is o, with more targets behind it.
fn first_book_with_targets(more: &[u8]) -> Records {
    let mut book = first_book();
    for target in more {
        book.target(*target);
    }
    book
}

const O: u8 = 0;
const P: u8 = 1;
const W: u8 = 2;
const U: u8 = 3;

#[test]
fn one_word_too_many() {
    let lines = [
        // The first word: p o, then w before what is read.
        ("bed4 go", 0b01),
        ("site fetch bed4", 0b001),
        // One in the middle: "fetch site" and "admit site" are 15 by document 01.
        ("fetch site bed4", 0b010),
        ("admit site ward7", 0b010),
        // The last one.
        ("go please", 0b10),
        ("go urgently bed4", 0b100),
    ];
    expect_numbers(&first_book(), &lines);
    // What is left is "log go urgently", lost where it is cancelled as soon as possible.
    expect_numbers(&second_book(), &[("log bed4 go urgently", 0b0010)]);
}

#[test]
fn either_of_two_words() {
    let lines = [
        ("go go", 0b11),
        // Left are "fetch bed4 site" and "fetch bed4 ward7", as w^l takes w and u.
        ("fetch bed4 ward7 site", 0b1100),
        ("admit ward7 ward7", 0b110),
        ("please go go", 0b110),
    ];
    expect_numbers(&first_book(), &lines);
    // One log takes go, the other one takes nothing.
    expect_numbers(&second_book(), &[("log log go", 0b011)]);
}

#[test]
fn no_word_in_the_way() {
    let lines = [
        ("fetch site", 0),
        ("admit site", 0),
        // Two words would have to be left out.
        ("go go go", 0),
        // No o, a word too few, and the wrong order.
        ("bed4 ward7", 0),
        ("please please", 0),
        ("bed4 fetch", 0),
    ];
    expect_numbers(&first_book(), &lines);
    // The target is k, which log alone has.
    expect_numbers(&second_book(), &[("go", 0), ("go go", 0), ("go log", 0)]);
}

/// What is left of one word is the empty line, which has no reading; of none, nothing can be left out.
#[test]
fn one_word_and_none() {
    let lines = [("bed4", 0), ("fetch", 0), ("urgently", 0), (" Site ", 0)];
    expect_numbers(&first_book(), &lines);
    for book in [first_book(), second_book()] {
        expect_numbers(&book, &[("", 0), (" ", 0), ("      ", 0)]);
    }
}

#[test]
fn repeated_words() {
    let lines = [
        // Of two equal words the first alone, the last alone, or both.
        ("urgently go urgently", 0b001),
        ("go urgently go", 0b100),
        ("fetch bed4 ward7 ward7", 0b1100),
        ("please please go go", 0b1100),
        ("go go urgently urgently", 0b0011),
    ];
    expect_numbers(&first_book(), &lines);
}

/// Bits count words, not bytes, and words are the same by 2.1.
#[test]
fn capitals_and_spaces() {
    let lines = [
        ("  GO   Go  ", 0b11),
        ("BED4        go", 0b01),
        (" Fetch  SITE bED4 ", 0b010),
        ("   gO uRGENTLY   Bed4", 0b100),
    ];
    expect_numbers(&first_book(), &lines);
}

#[test]
fn several_targets() {
    // "go" is read for o, "bed4" for p, the second target.
    let lines = [("site bed4", 0b01), ("bed4 go", 0b11), ("bed4 go site", 0)];
    expect_numbers(&first_book_with_targets(&[P]), &lines);
    // u is below w, and w is not below u.
    expect_numbers(&first_book_with_targets(&[W]), &[("ward7 site", 0b11)]);
    expect_numbers(&first_book_with_targets(&[U]), &[("ward7 site", 0b10)]);
    // The eighth target alone.
    let eight = first_book_with_targets(&[O, O, O, O, O, O, P]);
    expect_numbers(&eight, &[("bed4 site", 0b10), ("ward7 site", 0)]);
    // k, then o: "go" is read for o, "log go" for k.
    let mut book = second_book();
    book.target(O);
    expect_numbers(&book, &[("go log", 0b10), ("go log go", 0b001)]);
}

/// The first book with "now" as nothing or p, and "well" as nothing.
fn book_with_empty_entries() -> Records {
    let mut book = first_book();
    book.entry(b"now", &[]);
    book.entry(b"now", &[(P, 0)]);
    book.entry(b"well", &[]);
    book
}

#[test]
fn empty_entries() {
    let lines = [
        // Left are "go now", where now is nothing, and "fetch now", where it is p.
        ("fetch go now", 0b011),
        ("go go now", 0b011),
        ("now now", 0),
        // Of empty types alone nothing can be read.
        ("well", 0),
        ("well well", 0),
        ("well go bed4", 0b100),
        ("bed4 well go well", 0b0001),
    ];
    expect_numbers(&book_with_empty_entries(), &lines);
    // now is nothing the first time and p the second: o p^l p.
    let answer = [0, 3, 0, 9, 10, 3, 1, 3, 2];
    expect_answer(&book_with_empty_entries(), "fetch now now", &answer);
}

#[test]
fn twenty_four_words() {
    let urgently = "urgently ".repeat(22);
    let please = "please ".repeat(22);
    let lines = [
        (format!("go {urgently}bed4"), 1 << 23),
        (format!("bed4 {please}go"), 1),
        (format!("{please}go go"), 0b11 << 22),
        (format!("{please}bed4 go"), 1 << 22),
        ("go ".repeat(24), 0),
    ];
    for (line, number) in lines {
        expect_numbers(&first_book(), &[(&line, number)]);
    }
    // 24 simple types leave no single one, whatever is chosen; 23 are o, then o o^r eleven times.
    let mut book = first_book();
    book.entry(b"x", &[(O, 0)]);
    book.entry(b"x", &[(O, 1)]);
    expect_numbers(&book, &[(&"x ".repeat(24), 0x00ff_ffff), ("x x", 0b11)]);
}

/// Lines that break 11 to 14 get no number, also where a word less would be read.
#[test]
fn refusals_before_15() {
    let book = first_book();
    expect_refused(&book, "go\tgo", (11, 2), None);
    expect_refused(&book, "go go \u{7f}", (11, 6), None);
    expect_refused(&book, &"go ".repeat(25), (12, 24 * 3), None);
    let line = format!("bed4 {}go", "please ".repeat(23));
    expect_refused(&book, &line, (12, 5 + 23 * 7), None);
    let line = format!(" go {} nobody", "w".repeat(32));
    expect_refused(&book, &line, (12, 4), None);
    expect_refused(&book, "go nobody", (13, 3), None);
    // With the one of go, 42 times 12 and 7 more make 512 simple types.
    let mut book = first_book();
    for _ in 0..42 {
        book.entry(b"heavy", &[(P, 0); 12]);
    }
    book.entry(b"heavy", &[(P, 0); 7]);
    expect_numbers(&book, &[("go heavy", 0b10)]);
    book.entry(b"heavy", &[(P, 0)]);
    expect_refused(&book, "go heavy", (14, 0), None);
}

/// A line with a reading is answered, also where a word less would be read too.
#[test]
fn lines_with_a_reading() {
    let book = first_book();
    expect_answer(&book, "go", &[0, 1, 7, 1, 1]);
    expect_answer(&book, "FETCH bed4", &[0, 2, 0, 2, 3, 1, 3, 2]);
    let answer = [0, 3, 1, 2, 3, 5, 1, 5, 4, 3, 2];
    expect_answer(&book, "fetch bed4  ward7", &answer);
    let answer = [0, 3, 9, 7, 4, 5, 1, 5, 4, 3, 2];
    expect_answer(&second_book(), "log go urgently", &answer);
    let book = first_book_with_targets(&[P]);
    expect_answer(&book, "bed4", &[1, 1, 2, 1, 1]);
}

/// A bad book comes before the line, and no number with it.
#[test]
fn bad_books() {
    // The first book has 150 bytes: types 20, pair 6, entries 119, target 5. Seven more targets make 185.
    let with = |more: Vec<u8>| {
        let mut book = first_book();
        book.list.push(more);
        book
    };
    for line in ["go go", "go", "", "go\t", "nobody"] {
        expect_refused(&Records::default(), line, (10, 0), None);
        expect_refused(&with(vec![0; 65_536 - 150]), line, (1, 0), None);
        expect_refused(&with(vec![1, 0, 4]), line, (2, 150), None);
        expect_refused(&with(record(99, &[0])), line, (3, 150), None);
        expect_refused(&with(record(4, &[])), line, (4, 150), None);
        expect_refused(&with(record(4, &[4])), line, (5, 150), None);
        expect_refused(&with(record(1, b"o")), line, (7, 150), None);
        expect_refused(&first_book_with_targets(&[P; 8]), line, (8, 185), None);
    }
}
