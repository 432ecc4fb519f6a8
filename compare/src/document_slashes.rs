//! Books with types in slash notation by the sentences of document 02's request
//! 2.5, worked out by hand, for all three readers.

use crate::books::{entry, first_book, record, second_book, slashed_entry, Records};
use crate::document_cases::{
    check_book, counts, read, reading, Outcome, TABLE_OF_LINES_WITHOUT_A_READING,
};

/// Types o, p, w and u, the pair u ≤ w and the target o, with entries still to
/// come: document 01's first book without its entries.
fn begun() -> Records {
    let mut book = first_book();
    book.list.retain(|record| record[2] != 3);
    book
}

/// Document 01's first book with every type as a text.
fn first_book_in_slashes() -> Records {
    let mut book = begun();
    for (word, text) in [
        ("fetch", "o/p"),
        ("fetch", "(o/w)/p"),
        ("bed4", "p"),
        ("ward7", "(u)"),
        ("urgently", "o\\o"),
        ("admit", "o/u"),
        ("site", "w"),
        ("go", "o"),
        ("please", "(o)/(o)"),
    ] {
        book.slashed_entry(word.as_bytes(), text.as_bytes());
    }
    book
}

fn expect(book: &Records, line: &str, outcome: Outcome) {
    assert_eq!(read(book, line, 512), outcome, "{line}");
}

/// The number that a record is refused with behind the first book.
fn with_record(added: Vec<u8>) -> u32 {
    let mut book = first_book();
    let offset = book.bytes().len() as u64;
    book.list.push(added);
    // What stands behind a bad record does not count.
    book.list.push(record(9, &[]));
    let (number, value) = check_book(&book.bytes()).unwrap_err();
    assert_eq!(value, offset);
    number
}

fn with_text(text: &str) -> u32 {
    with_record(slashed_entry(b"x", text.as_bytes()))
}

#[test]
fn first_book_is_read_in_slashes() {
    let book = first_book_in_slashes();
    assert_eq!(check_book(&book.bytes()), counts(4, 9, 5));
    for (line, entries, partners) in [
        ("fetch bed4 ward7", &[1, 2, 3][..], &[1, 5, 4, 3, 2][..]),
        ("fetch bed4", &[0, 2], &[1, 3, 2]),
        ("go", &[7], &[1]),
        ("go urgently", &[7, 4], &[2, 1, 3]),
        ("go urgently urgently", &[7, 4, 4], &[2, 1, 4, 3, 5]),
        ("please go urgently", &[8, 7, 4], &[1, 5, 4, 3, 2]),
        ("admit ward7", &[5, 3], &[1, 3, 2]),
        ("FETCH Bed4", &[0, 2], &[1, 3, 2]),
    ] {
        expect(&book, line, reading(0, entries, partners));
    }
    for line in TABLE_OF_LINES_WITHOUT_A_READING {
        expect(&book, line, Err((15, 0)));
    }
    expect(&book, "go nobody", Err((13, 3)));
    assert_eq!(read(&book, "fetch bed4", 7), Err((16, 8)));
}

/// (o/w)/p is o w^l p^l, and o/(p/w) is o w^(−2) p^(−1): what each wants behind
/// it shows by what it is read with.
#[test]
fn examples_of_the_request() {
    let mut book = begun();
    book.slashed_entry(b"x", b"(o/w)/p");
    book.slashed_entry(b"y", b"o/(p/w)");
    book.entry(b"p", &[(1, 0)]);
    book.entry(b"w", &[(2, 0)]);
    book.slashed_entry(b"pw", b"p/w");
    let linked = [1, 5, 4, 3, 2];
    expect(&book, "x p w", reading(0, &[0, 2, 3], &linked));
    expect(&book, "x w p", Err((15, 0)));
    expect(&book, "x pw", Err((15, 0)));
    expect(&book, "y pw", reading(0, &[1, 4], &linked));
    expect(&book, "y p", Err((15, 0)));
    expect(&book, "y p w", Err((15, 0)));
    // o w^l p^l p w^l w w
    let longer = [1, 7, 4, 3, 6, 5, 2];
    expect(&book, "x pw w w", reading(0, &[0, 4, 3, 3], &longer));
}

/// The order counts for texts as for other entries: u stands below w.
#[test]
fn order_counts_in_texts() {
    let mut book = begun();
    book.slashed_entry(b"x", b"o/w");
    book.slashed_entry(b"y", b"o/u");
    book.slashed_entry(b"u", b"u");
    book.slashed_entry(b"w", b"w");
    expect(&book, "x u", reading(0, &[0, 2], &[1, 3, 2]));
    expect(&book, "y w", Err((15, 0)));
}

/// Entries of both kinds are numbered together, and looked up alike.
#[test]
fn both_kinds_are_numbered_together() {
    let mut book = begun();
    book.slashed_entry(b"go", b"p");
    book.entry(b"Go", &[(2, 0)]);
    book.slashed_entry(b"GO", b"o");
    book.entry(b"go", &[(0, 0)]);
    book.slashed_entry(b"now", b"o\\o");
    assert_eq!(check_book(&book.bytes()), counts(4, 5, 5));
    expect(&book, "go", reading(0, &[2], &[1]));
    expect(&book, "gO NOW", reading(0, &[2, 4], &[2, 1, 3]));
}

/// Six opening brackets pass, seven do not, wherever they stand; closing ones
/// before them count.
#[test]
fn brackets_are_counted_alone() {
    let mut book = begun();
    book.slashed_entry(b"go", b"((((((o))))))");
    expect(&book, "go", reading(0, &[0], &[1]));
    for text in [
        "(((((((o)))))))",
        "(((((((",
        ")((((((((",
        "!! (((((((",
        "()(((((((",
    ] {
        assert_eq!(with_text(text), 19, "{text}");
    }
    for text in [")(((((((", "((((((", "((((((!", "o)((((((("] {
        assert_eq!(with_text(text), 20, "{text}");
    }
}

#[test]
fn texts_that_are_no_types() {
    for text in [
        "", "()", "o/p/w", "o\\o\\o", "o/p\\w", "/", "/o", "o/", "o//p", "(o", "o)", "o p", " o",
        "o ", "O", "oP", "0o", "9", "(o)(p)", "o(p)", "o-p", "o^l", "o\n", "\u{7f}",
    ] {
        assert_eq!(with_text(text), 20, "{text}");
    }
}

#[test]
fn names_of_fifteen_and_sixteen_bytes() {
    let mut book = begun();
    book.basic_type(b"abcdefghijklmno");
    book.slashed_entry(b"x", b"o/abcdefghijklmno");
    book.entry(b"y", &[(4, 0)]);
    expect(&book, "x y", reading(0, &[0, 1], &[1, 3, 2]));
    assert_eq!(with_text("abcdefghijklmno"), 5);
    assert_eq!(with_text("abcdefghijklmnop"), 20);
}

/// A name counts as declared from the record behind its own on.
#[test]
fn names_are_declared_earlier() {
    let mut book = first_book();
    let offset = book.bytes().len() as u64;
    book.slashed_entry(b"x", b"o/late");
    book.basic_type(b"late");
    assert_eq!(check_book(&book.bytes()), Err((5, offset)));
    let last = book.list.len() - 1;
    book.list.swap(last - 1, last);
    assert_eq!(check_book(&book.bytes()), counts(5, 10, 6));
    // The beginning of a name is another name, and so is a longer one.
    assert_eq!(with_text("late"), 5);
    assert_eq!(with_text("o1"), 5);
}

/// A text of twelve names.
const TWELVE: &str = "((o/o)/(o/o))/((((o/o)/(o/o))/(o/o))/(o/o))";

#[test]
fn twelve_simple_types_pass() {
    let mut book = first_book();
    book.slashed_entry(b"x", TWELVE.as_bytes());
    assert_eq!(check_book(&book.bytes()), counts(4, 10, 5));
    assert_eq!(with_text(&format!("({TWELVE})/o")), 21);
    assert_eq!(with_text(&format!("o\\({TWELVE})")), 21);
    assert_eq!(with_text(&format!("({TWELVE})/({TWELVE})")), 21);
    assert_eq!(with_text(&format!("({TWELVE})/nobody")), 5);
}

/// 2, 3, 4, 19, 20, 5, 21, 9: each before those behind it.
#[test]
fn order_of_causes() {
    // A body that is cut short.
    let mut cut = slashed_entry(b"", b"(((((((");
    cut[0] += 99;
    let mut book = first_book();
    let offset = book.bytes().len() as u64;
    book.list.push(cut);
    assert_eq!(check_book(&book.bytes()), Err((2, offset)));
    // The kind has two bytes.
    assert_eq!(with_record(record(5 + 256, b"\x01xo")), 3);
    assert_eq!(with_record(record(6, b"\x01xo")), 3);
    // The word before its text.
    assert_eq!(with_record(record(5, &[])), 4);
    assert_eq!(with_record(record(5, b"\x00(((((((")), 4);
    assert_eq!(with_record(record(5, b"\x09(((((((")), 4);
    assert_eq!(with_record(slashed_entry(&[b'x'; 32], b"(((((((")), 4);
    assert_eq!(with_record(slashed_entry(b"a b", b"(((((((")), 4);
    assert_eq!(with_record(slashed_entry(b"a\x7f", b"o/")), 4);
    // A body that ends with the word has an empty text.
    assert_eq!(with_record(record(5, b"\x01x")), 20);
    assert_eq!(with_record(slashed_entry(&[b'x'; 31], b"")), 20);
    // Brackets before grammar, grammar before names, names before their number.
    assert_eq!(with_text("nobody/(((((((o"), 19);
    assert_eq!(with_text("nobody/"), 20);
    assert_eq!(with_text(&format!("({TWELVE})/o/")), 20);
    assert_eq!(with_text(&format!("({TWELVE})/(nobody/o)")), 5);
}

/// The 1,025th entry of both kinds together is 9, after all other causes.
#[test]
fn entries_of_both_kinds_are_counted_together() {
    let mut full = begun();
    for number in 0..1_024 {
        match number % 2 {
            0 => full.slashed_entry(b"x", b"o"),
            _ => full.entry(b"y", &[(0, 0)]),
        }
    }
    assert_eq!(check_book(&full.bytes()), counts(4, 1_024, 5));
    let offset = full.bytes().len() as u64;
    let more = |added: Vec<u8>| {
        let mut book = full.clone();
        book.list.push(added);
        check_book(&book.bytes())
    };
    let text = |text: &str| slashed_entry(b"x", text.as_bytes());
    for (added, number) in [
        (text("o"), 9),
        (text("o/p"), 9),
        (entry(b"x", &[]), 9),
        (text(&format!("({TWELVE})/o")), 21),
        (text("nobody"), 5),
        (text("o/"), 20),
        (text("((((((("), 19),
        (record(5, b"\x00o"), 4),
    ] {
        assert_eq!(more(added), Err((number, offset)));
    }
}

/// What a text stands for counts for 14 as any type does.
#[test]
fn simple_types_of_texts_are_counted() {
    let mut book = first_book();
    for _ in 0..2 {
        book.slashed_entry(b"x", TWELVE.as_bytes());
    }
    book.slashed_entry(b"x", b"(o/o)/(o/o)");
    book.slashed_entry(b"X", b"(((o/o)/o)/o)");
    let line = ["x"; 16].join(" ");
    expect(&book, &line, Err((15, 0)));
    expect(&book, &(line + " go"), Err((14, 0)));
}

/// Targets and texts: the book's second target alone is read.
#[test]
fn texts_are_read_for_a_later_target() {
    let mut book = begun();
    book.target(1);
    book.slashed_entry(b"x", b"w\\p");
    book.entry(b"y", &[(3, 0)]);
    expect(&book, "y x", reading(1, &[1, 0], &[2, 1, 3]));
    let mut second = second_book();
    second.slashed_entry(b"note", b"k/(k/o)");
    // k o^(−2) k^(−1), and for "log" k o^l.
    expect(&second, "note log", reading(0, &[10, 9], &[1, 5, 4, 3, 2]));
}
