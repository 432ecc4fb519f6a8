//! Listings by document 01's "A book to try", the sentences of document 02's request 2.7 and `FORMAT.md`, section 12, worked out by hand,
//! byte for byte, for the independent reader.

use crate::books::{
    example_4_3, first_book, record, second_book, slashed_entry, target_ranges, Records,
};
use crate::document_cases::TABLE_OF_LINES_WITHOUT_A_READING;
use crate::independent;

/// What is printed for an input.
fn printed(book: &[u8], input: &[u8]) -> String {
    let output = independent::reading(book, input);
    String::from_utf8(output).expect("the listing is ASCII")
}

/// The rows, each closed by byte 10.
fn closed(rows: &[&str]) -> String {
    rows.iter().map(|row| format!("{row}\n")).collect()
}

/// The line, closed by byte 10, is listed with these rows.
fn expect(book: &Records, line: &str, rows: &[&str]) {
    let output = printed(&book.bytes(), format!("{line}\n").as_bytes());
    assert_eq!(output, closed(rows), "{line:?}");
}

/// The row of a line's refusal with a book.
fn expect_refused(book: &[u8], line: &str, row: &str) {
    let output = printed(book, format!("{line}\n").as_bytes());
    assert_eq!(output, format!("{row}\n"), "{line:?}");
}

// Document 01

const FETCH_BED4_WARD7: [&str; 9] = [
    "yes 3 5 0",
    "1 fetch 1",
    "2 bed4 2",
    "3 ward7 3",
    "1 o 0 1 e",
    "2 w -1 5 t",
    "3 p -1 4 e",
    "4 p 0 3 e",
    "5 u 0 2 t",
];

const GO: [&str; 3] = ["yes 1 1 0", "1 go 7", "1 o 0 1 e"];

const GO_URGENTLY: [&str; 6] = [
    "yes 2 3 0",
    "1 go 7",
    "2 urgently 4",
    "1 o 0 2 e",
    "2 o 1 1 e",
    "3 o 0 3 e",
];

/// The first case as document 01 prints it, byte for byte, with the target's number and the letters.
#[test]
fn first_case() {
    let output = printed(&first_book().bytes(), b"fetch bed4 ward7\n");
    let expected = "yes 3 5 0\n1 fetch 1\n2 bed4 2\n3 ward7 3\n\
        1 o 0 1 e\n2 w -1 5 t\n3 p -1 4 e\n4 p 0 3 e\n5 u 0 2 t\n";
    assert_eq!(output, expected);
    assert_eq!(output, closed(&FETCH_BED4_WARD7));
}

#[test]
fn cases_of_the_first_book() {
    let book = first_book();
    let fetch = [
        "yes 2 3 0",
        "1 fetch 0",
        "2 bed4 2",
        "1 o 0 1 e",
        "2 p -1 3 e",
        "3 p 0 2 e",
    ];
    expect(&book, "fetch bed4", &fetch);
    expect(&book, "go", &GO);
    expect(&book, "go urgently", &GO_URGENTLY);
    let twice = [
        "yes 3 5 0",
        "1 go 7",
        "2 urgently 4",
        "3 urgently 4",
        "1 o 0 2 e",
        "2 o 1 1 e",
        "3 o 0 4 e",
        "4 o 1 3 e",
        "5 o 0 5 e",
    ];
    expect(&book, "go urgently urgently", &twice);
    let please = [
        "yes 3 5 0",
        "1 please 8",
        "2 go 7",
        "3 urgently 4",
        "1 o 0 1 e",
        "2 o -1 5 e",
        "3 o 0 4 e",
        "4 o 1 3 e",
        "5 o 0 2 e",
    ];
    expect(&book, "please go urgently", &please);
    let admit = [
        "yes 2 3 0",
        "1 admit 5",
        "2 ward7 3",
        "1 o 0 1 e",
        "2 u -1 3 e",
        "3 u 0 2 e",
    ];
    expect(&book, "admit ward7", &admit);
    // With w itself for what the first case has u for.
    let site = [
        "yes 3 5 0",
        "1 fetch 1",
        "2 bed4 2",
        "3 site 6",
        "1 o 0 1 e",
        "2 w -1 5 e",
        "3 p -1 4 e",
        "4 p 0 3 e",
        "5 w 0 2 e",
    ];
    expect(&book, "fetch bed4 site", &site);
    for line in TABLE_OF_LINES_WITHOUT_A_READING {
        expect(&book, line, &["no 15 0"]);
    }
}

#[test]
fn case_of_the_second_book() {
    let log = [
        "yes 3 5 0",
        "1 log 9",
        "2 go 7",
        "3 urgently 4",
        "1 k 0 1 e",
        "2 o -1 5 e",
        "3 o 0 4 e",
        "4 o 1 3 e",
        "5 o 0 2 e",
    ];
    expect(&second_book(), "log go urgently", &log);
}

/// pi1 ≤ pi, s1 ≤ s and i ≤ j; s is the target and s1 is left.
#[test]
fn case_of_document_000() {
    let types = [
        "1 pi1 0 2 t",
        "2 pi 1 1 t",
        "3 s1 0 3 t",
        "4 j -1 5 t",
        "5 i 0 4 t",
        "6 o -1 7 e",
        "7 o 0 6 e",
    ];
    let listing = |words: [&'static str; 4]| [&["yes 4 7 0"], &words[..], &types].concat();
    let words = ["1 I 0", "2 will 1", "3 meet 3", "4 him 4"];
    expect(&example_4_3(), "I will meet him", &listing(words));
    let words = ["1 i 0", "2 WILL 1", "3 Meet 3", "4 hIM 4"];
    expect(&example_4_3(), "i WILL Meet hIM", &listing(words));
}

#[test]
fn words_stand_as_they_are_typed() {
    let mut rows = FETCH_BED4_WARD7;
    rows[1..4].copy_from_slice(&["1 FETCH 1", "2 Bed4 2", "3 wARD7 3"]);
    expect(&first_book(), "FETCH Bed4 wARD7", &rows);
    // The book's own capitals are not shown.
    let mut book = first_book();
    book.entry(b"HALT!", &[(0, 0)]);
    let halt = |row| ["yes 1 1 0", row, "1 o 0 1 e"];
    expect(&book, "halt!", &halt("1 halt! 9"));
    expect(&book, "HALT!", &halt("1 HALT! 9"));
    expect(&book, "Halt!", &halt("1 Halt! 9"));
}

#[test]
fn spaces_leave_no_trace() {
    for line in [" go urgently", "go urgently ", "   go     urgently  "] {
        expect(&first_book(), line, &GO_URGENTLY);
    }
}

/// 23 times o o^l and then o: the first o is left, and each o^l is linked to the o behind it.
#[test]
fn longest_line_of_one_word() {
    let line = "please ".repeat(23) + "go";
    let mut rows = vec!["yes 24 47 0".to_string()];
    rows.extend((1..=23).map(|number| format!("{number} please 8")));
    rows.extend(["24 go 7".to_string(), "1 o 0 1 e".to_string()]);
    for link in 1..=23 {
        let (left, right) = (2 * link, 2 * link + 1);
        rows.push(format!("{left} o -1 {right} e"));
        rows.push(format!("{right} o 0 {left} e"));
    }
    let rows: Vec<&str> = rows.iter().map(String::as_str).collect();
    expect(&first_book(), &line, &rows);
}

// FORMAT.md

/// The small book of section 2, byte by byte.
const SMALL_BOOK: &[u8; 81] = b"\x03\0\x01\0job\x05\0\x01\0place\x04\0\x01\0ward\
    \x02\0\x02\0\x02\x01\x01\0\x04\0\0\
    \x0a\0\x03\0\x05clean\0\0\x01\xff\x08\0\x03\0\x05ward7\x02\0\
    \x08\0\x03\0\x03now\0\x01\0\0\x04\0\x03\0\x03now";

/// The small book with more records behind its own.
fn small_book_and(records: &[Vec<u8>]) -> Vec<u8> {
    [&SMALL_BOOK[..], &records.concat()].concat()
}

#[test]
fn examples_of_the_format() {
    let expected = "yes 3 5 0\n1 clean 0\n2 ward7 1\n3 now 2\n\
        1 job 0 4 e\n2 place -1 3 t\n3 ward 0 2 t\n4 job 1 1 e\n5 job 0 5 e\n";
    assert_eq!(printed(SMALL_BOOK, b"clean ward7 now\n"), expected);
    let types = "1 job 0 1 e\n2 place -1 3 t\n3 ward 0 2 t\n";
    let expected = format!("yes 2 3 0\n1 clean 0\n2 ward7 1\n{types}");
    assert_eq!(printed(SMALL_BOOK, b"clean ward7\n"), expected);
    let expected = format!("yes 2 3 0\n1 CLEAN 0\n2 Ward7 1\n{types}");
    assert_eq!(printed(SMALL_BOOK, b"CLEAN Ward7\n"), expected);
    expect_refused(SMALL_BOOK, "ward7", "no 15 0");
    expect_refused(SMALL_BOOK, "clean now", "no 15 0");
    expect_refused(SMALL_BOOK, "clean ward8", "no 13 6");
}

/// Section 5: "go" is read for the first target, whichever that is, and "arrived" for the one that it has a reading for.
#[test]
fn two_targets_of_the_format() {
    let book = |targets: [u8; 2]| {
        let mut book = Records::default();
        book.basic_type(b"order");
        book.basic_type(b"note");
        book.target(targets[0]);
        book.target(targets[1]);
        book.entry(b"arrived", &[(1, 0)]);
        book.entry(b"go", &[(1, 0)]);
        book.entry(b"go", &[(0, 0)]);
        book
    };
    let go = ["yes 1 1 0", "1 go 2", "1 order 0 1 e"];
    expect(&book([0, 1]), "go", &go);
    let go = ["yes 1 1 0", "1 go 1", "1 note 0 1 e"];
    expect(&book([1, 0]), "go", &go);
    let arrived = ["yes 1 1 1", "1 arrived 0", "1 note 0 1 e"];
    expect(&book([0, 1]), "arrived", &arrived);
}

// What a link rests on

const S: u8 = 0;
const A: u8 = 1;
const B: u8 = 2;
const C: u8 = 3;

/// A book of the types s, a, b and c with these pairs, targets and entries.
fn book(pairs: &[(u8, u8)], targets: &[u8], entries: &[(&str, &[(u8, i8)])]) -> Records {
    let mut book = Records::default();
    for name in ["s", "a", "b", "c"] {
        book.basic_type(name.as_bytes());
    }
    for (lower, upper) in pairs {
        book.pair(*lower, *upper);
    }
    for target in targets {
        book.target(*target);
    }
    for (word, simple_types) in entries {
        book.entry(word.as_bytes(), simple_types);
    }
    book
}

/// Both a ≤ b and b ≤ a: either does for the other, and still they are different.
#[test]
fn types_below_each_other() {
    let entries: [(&str, &[(u8, i8)]); 3] = [
        ("x", &[(A, 0), (B, -1)]),
        ("y", &[(A, 0)]),
        ("z", &[(B, 0)]),
    ];
    let both = book(&[(A, B), (B, A)], &[A], &entries);
    let different = [
        "yes 2 3 0",
        "1 x 0",
        "2 y 1",
        "1 a 0 1 e",
        "2 b -1 3 t",
        "3 a 0 2 t",
    ];
    let same = [
        "yes 2 3 0",
        "1 x 0",
        "2 z 2",
        "1 a 0 1 e",
        "2 b -1 3 e",
        "3 b 0 2 e",
    ];
    expect(&both, "x y", &different);
    expect(&both, "x z", &same);
    expect(&both, "y", &["yes 1 1 0", "1 y 1", "1 a 0 1 e"]);
    expect(&both, "z", &["yes 1 1 0", "1 z 2", "1 b 0 1 t"]);
    // A circle of three, in which a ≤ b holds by two pairs.
    let circle = book(&[(A, C), (C, B), (B, A)], &[A], &entries);
    expect(&circle, "x y", &different);
    expect(&circle, "x z", &same);
    expect(&circle, "z", &["yes 1 1 0", "1 z 2", "1 b 0 1 t"]);
}

/// A pair of a type with itself, and a pair that is repeated, change nothing.
#[test]
fn pairs_that_add_nothing() {
    let entries: [(&str, &[(u8, i8)]); 2] = [("x", &[(S, 0), (B, -1)]), ("y", &[(A, 0)])];
    let book = book(&[(S, S), (A, B), (A, A), (A, B)], &[S], &entries);
    let rows = [
        "yes 2 3 0",
        "1 x 0",
        "2 y 1",
        "1 s 0 1 e",
        "2 b -1 3 t",
        "3 a 0 2 t",
    ];
    expect(&book, "x y", &rows);
}

/// a ≤ b and b ≤ c: a does for c, though no pair says so.
#[test]
fn link_through_two_pairs() {
    let entries: [(&str, &[(u8, i8)]); 3] = [
        ("x", &[(S, 0), (C, -1)]),
        ("y", &[(A, 0)]),
        ("z", &[(C, 1), (S, 0)]),
    ];
    let targets_s_and_c = book(&[(B, C), (A, B)], &[S, C], &entries);
    let right = [
        "yes 2 3 0",
        "1 x 0",
        "2 y 1",
        "1 s 0 1 e",
        "2 c -1 3 t",
        "3 a 0 2 t",
    ];
    expect(&targets_s_and_c, "x y", &right);
    let left = [
        "yes 2 3 0",
        "1 y 1",
        "2 z 2",
        "1 a 0 2 t",
        "2 c 1 1 t",
        "3 s 0 3 e",
    ];
    expect(&targets_s_and_c, "y z", &left);
    // The unlinked one, at or below the target by two pairs.
    let alone = ["yes 1 1 1", "1 y 1", "1 a 0 1 t"];
    expect(&targets_s_and_c, "y", &alone);
}

/// The unlinked one is compared with the target that is taken, not with one that it is.
#[test]
fn unlinked_one_and_the_targets() {
    let entries: [(&str, &[(u8, i8)]); 3] = [("x", &[(S, 0)]), ("y", &[(A, 0)]), ("z", &[(B, 0)])];
    let book = |targets| book(&[(A, B)], targets, &entries);
    for (targets, number, letter) in [
        (&[A][..], 0, 'e'),
        (&[B], 0, 't'),
        (&[S, B], 1, 't'),
        (&[S, A], 1, 'e'),
        (&[S, B, A], 1, 't'),
        (&[S, A, B], 1, 'e'),
        (&[B, A], 0, 't'),
        (&[S, B, B], 1, 't'),
        (&[S, S, S, C, C, C, S, B], 7, 't'),
        (&[S, S, S, C, C, C, S, A], 7, 'e'),
    ] {
        let output = printed(&book(targets).bytes(), b"y\n");
        let expected = format!("yes 1 1 {number}\n1 y 1\n1 a 0 1 {letter}\n");
        assert_eq!(output, expected, "{targets:?}");
    }
    expect(&book(&[S, B]), "x", &["yes 1 1 0", "1 x 0", "1 s 0 1 e"]);
    expect(&book(&[S, B]), "z", &["yes 1 1 1", "1 z 2", "1 b 0 1 e"]);
    expect(&book(&[S, A]), "z", &["no 15 0"]);
}

/// In a b^l b b^r s either end may be left: s for the target s, a for b, which is above it.
#[test]
fn links_for_the_target_that_is_taken() {
    let both = [(A, 0), (B, -1), (B, 0), (B, 1), (S, 0)];
    let entries: [(&str, &[(u8, i8)]); 1] = [("x", &both)];
    let book = |targets| book(&[(A, B), (S, B)], targets, &entries);
    let for_s = [
        "yes 1 5 0",
        "1 x 0",
        "1 a 0 4 t",
        "2 b -1 3 e",
        "3 b 0 2 e",
        "4 b 1 1 t",
        "5 s 0 5 e",
    ];
    let for_b = [
        "yes 1 5 1",
        "1 x 0",
        "1 a 0 1 t",
        "2 b -1 5 t",
        "3 b 0 4 e",
        "4 b 1 3 e",
        "5 s 0 2 t",
    ];
    expect(&book(&[S, B]), "x", &for_s);
    expect(&book(&[C, B]), "x", &for_b);
}

/// With a ≤ b the even exponent is a's and the odd one b's, whichever is the earlier.
#[test]
fn even_and_odd_exponents() {
    let entries: [(&str, &[(u8, i8)]); 10] = [
        ("go", &[(S, 0)]),
        ("m3", &[(B, -3), (A, -2)]),
        ("m2", &[(A, -2), (B, -1)]),
        ("m1", &[(B, -1), (A, 0)]),
        ("p0", &[(A, 0), (B, 1)]),
        ("p1", &[(B, 1), (A, 2)]),
        ("p2", &[(A, 2), (B, 3)]),
        ("m8", &[(A, -8), (B, -7)]),
        ("p7", &[(B, 7), (A, 8)]),
        ("p3", &[(B, 3), (B, 4)]),
    ];
    let rows = [
        "yes 10 19 0",
        "1 go 0",
        "2 m3 1",
        "3 m2 2",
        "4 m1 3",
        "5 p0 4",
        "6 p1 5",
        "7 p2 6",
        "8 m8 7",
        "9 p7 8",
        "10 p3 9",
        "1 s 0 1 e",
        "2 b -3 3 t",
        "3 a -2 2 t",
        "4 a -2 5 t",
        "5 b -1 4 t",
        "6 b -1 7 t",
        "7 a 0 6 t",
        "8 a 0 9 t",
        "9 b 1 8 t",
        "10 b 1 11 t",
        "11 a 2 10 t",
        "12 a 2 13 t",
        "13 b 3 12 t",
        "14 a -8 15 t",
        "15 b -7 14 t",
        "16 b 7 17 t",
        "17 a 8 16 t",
        "18 b 3 19 e",
        "19 b 4 18 e",
    ];
    let line = "go m3 m2 m1 p0 p1 p2 m8 p7 p3";
    expect(&book(&[(A, B)], &[S], &entries), line, &rows);
    let turned = book(&[(B, A)], &[S], &entries);
    for word in ["m3", "m2", "m1", "p0", "p1", "p2", "m8", "p7"] {
        expect(&turned, &format!("go {word}"), &["no 15 0"]);
    }
    let same = [
        "yes 2 3 0",
        "1 go 0",
        "2 p3 9",
        "1 s 0 1 e",
        "2 b 3 3 e",
        "3 b 4 2 e",
    ];
    expect(&turned, "go p3", &same);
}

/// Links of both kinds, one around the other.
#[test]
fn links_under_links() {
    let entries: [(&str, &[(u8, i8)]); 3] = [
        ("x", &[(S, 0), (C, -1), (B, -1), (B, -1)]),
        ("y", &[(A, 0), (B, 0)]),
        ("z", &[(B, 0)]),
    ];
    let rows = [
        "yes 3 7 0",
        "1 x 0",
        "2 y 1",
        "3 z 2",
        "1 s 0 1 e",
        "2 c -1 7 t",
        "3 b -1 6 e",
        "4 b -1 5 t",
        "5 a 0 4 t",
        "6 b 0 3 e",
        "7 b 0 2 t",
    ];
    expect(&book(&[(A, B), (B, C)], &[S], &entries), "x y z", &rows);
}

/// An entry without simple types has a row for its word and no other.
#[test]
fn empty_entries() {
    let book = book(&[], &[S], &[("um", &[]), ("go", &[(S, 0)])]);
    let rows = ["yes 3 1 0", "1 um 0", "2 go 1", "3 Um 0", "1 s 0 1 e"];
    expect(&book, "um go Um", &rows);
    expect(&book, "um um", &["no 15 0"]);
}

/// Names of 15 bytes that differ in the last one, and one that begins another.
#[test]
fn long_names() {
    let mut book = Records::default();
    for name in ["abcdefghijklmno", "abcdefghijklmnp", "abcdefghijklmn"] {
        book.basic_type(name.as_bytes());
    }
    book.pair(0, 1);
    book.pair(2, 0);
    book.target(1);
    book.entry(b"x", &[(1, 0), (0, -1)]);
    book.entry(b"y", &[(2, 0)]);
    book.entry(b"z", &[(0, 0)]);
    let rows = [
        "yes 2 3 0",
        "1 x 0",
        "2 y 1",
        "1 abcdefghijklmnp 0 1 e",
        "2 abcdefghijklmno -1 3 t",
        "3 abcdefghijklmn 0 2 t",
    ];
    expect(&book, "x y", &rows);
    let alone = ["yes 1 1 0", "1 z 2", "1 abcdefghijklmno 0 1 t"];
    expect(&book, "z", &alone);
}

/// The types 62 and 63 of 64, and entry 1,023 of 1,024.
#[test]
fn last_types_and_entries() {
    let mut book = Records::default();
    for number in 0..64 {
        book.basic_type(format!("t{number}").as_bytes());
    }
    book.pair(62, 63);
    book.target(63);
    for _ in 0..1_023 {
        book.entry(b"other", &[]);
    }
    book.entry(b"last", &[(63, 0), (63, -1), (62, 0)]);
    let rows = [
        "yes 1 3 0",
        "1 last 1023",
        "1 t63 0 1 e",
        "2 t63 -1 3 t",
        "3 t62 0 2 t",
    ];
    expect(&book, "last", &rows);
}

/// The first book with entries in slash notation behind its own, from number 9 on.
#[test]
fn slashed_entries() {
    let mut book = first_book();
    for (word, text) in [
        ("bring", "(o/w)/p"),
        ("carry", "o/(p/u)"),
        ("bedin", "(p)/w"),
        ("let", "o/(p\\w)"),
        ("stay", "p\\w"),
    ] {
        book.slashed_entry(word.as_bytes(), text.as_bytes());
    }
    let mut bring = FETCH_BED4_WARD7;
    bring[1] = "1 bring 9";
    expect(&book, "bring bed4 ward7", &bring);
    // o u^(-2) p^(-1), then p w^(-1): for z = -2 the earlier one has to be at or below the later one.
    let carry = [
        "yes 2 5 0",
        "1 carry 10",
        "2 bedin 11",
        "1 o 0 1 e",
        "2 u -2 5 t",
        "3 p -1 4 e",
        "4 p 0 3 e",
        "5 w -1 2 t",
    ];
    expect(&book, "carry bedin", &carry);
    // o w^(-1) p, then p^(1) w.
    let stay = [
        "yes 2 5 0",
        "1 let 12",
        "2 stay 13",
        "1 o 0 1 e",
        "2 w -1 5 e",
        "3 p 0 4 e",
        "4 p 1 3 e",
        "5 w 0 2 e",
    ];
    expect(&book, "let stay", &stay);
}

// Refusals

/// A text of thirteen names.
const THIRTEEN: &[u8] = b"(((job/job)/(job/job))/((job/job)/(job/job)))/\
    (((job/job)/(job/job))/job)";

/// Records behind the small book, which has 81 bytes, and the refusals that they bring, whatever the line is.
#[test]
fn refused_books() {
    let target = || record(4, &[0]);
    let type_of_three_letters = |number: u32| record(1, format!("t{}", 10 + number).as_bytes());
    let cases: [(&[Vec<u8>], &str); 14] = [
        (&[vec![1]], "no 2 81"),
        (&[record(1, b"name")[..7].to_vec()], "no 2 81"),
        (&[record(6, b"")], "no 3 81"),
        (&[record(1, b"")], "no 4 81"),
        (&[record(4, &[3])], "no 5 81"),
        (&[slashed_entry(b"x", b"nobody")], "no 5 81"),
        (&[record(3, b"\x01x\0\x09")], "no 6 81"),
        (&[record(3, b"\x01x\0\xf7")], "no 6 81"),
        (&[record(1, b"job")], "no 7 81"),
        // Seven more targets of five bytes each, and then the ninth.
        (&[0; 8].map(|_| target()), "no 8 116"),
        // 61 more basic types of seven bytes each, and then the 65th.
        (
            &(0..62).map(type_of_three_letters).collect::<Vec<_>>(),
            "no 9 508",
        ),
        (&[slashed_entry(b"x", b"(((((((")], "no 19 81"),
        (&[slashed_entry(b"x", b"job/")], "no 20 81"),
        (&[slashed_entry(b"x", THIRTEEN)], "no 21 81"),
    ];
    for (records, row) in cases {
        for line in ["clean ward7", "clean\tward8", ""] {
            expect_refused(&small_book_and(records), line, row);
        }
    }
    let mut without_target = SMALL_BOOK.to_vec();
    without_target.drain(target_ranges(SMALL_BOOK)[0].clone());
    expect_refused(&without_target, "clean ward7", "no 10 76");
}

#[test]
fn books_of_too_many_bytes() {
    // A book of 65,535 bytes is looked at: its first record is of kind 0.
    expect_refused(&[0; 65_535], "go", "no 3 0");
    expect_refused(&[0; 65_536], "go", "no 1 0");
    expect_refused(&[0; 70_000], "go\t", "no 1 0");
}

#[test]
fn empty_book() {
    for line in ["go", "", "go\t", "\x7f"] {
        expect_refused(b"", line, "no 10 0");
    }
    assert_eq!(printed(b"", b""), "no 10 0\n");
}

#[test]
fn refused_lines() {
    let heavy = [
        record(3, &[&b"\x01x"[..], &[0; 24]].concat()),
        record(3, &[&b"\x01x"[..], &[0; 24]].concat()),
    ];
    let book = small_book_and(&heavy);
    for (line, row) in [
        ("clean\tward7", "no 11 5"),
        ("clean ward7\r", "no 11 11"),
        ("\0", "no 11 0"),
        // é has two bytes.
        ("clean é", "no 11 6"),
        ("clean wwwwwwwwwwwwwwwwwwwwwwwwwwwwwwww", "no 12 6"),
        ("clean wwwwwwwwwwwwwwwwwwwwwwwwwwwwwww", "no 13 6"),
        (&"now ".repeat(25), "no 12 96"),
        ("clean ward8", "no 13 6"),
        ("  ward ward7", "no 13 2"),
        // 22 times 24 simple types are 528, 21 times 24 are 504.
        (&"x ".repeat(22), "no 14 0"),
        (&"x ".repeat(21), "no 15 0"),
        ("ward7", "no 15 0"),
        ("", "no 15 0"),
        ("   ", "no 15 0"),
    ] {
        expect_refused(&book, line, row);
    }
}

// The input

/// The line goes to the first byte 10, or to the end.
#[test]
fn first_line_alone() {
    let book = first_book().bytes();
    for (input, rows) in [
        (&b"go"[..], &GO[..]),
        (b"go\n", &GO),
        (b"go\n\n", &GO),
        (b"go\nurgently", &GO),
        (b"go\n\0\xff\n go", &GO),
        (b"go urgently", &GO_URGENTLY),
        (b"go urgently\ngo\n", &GO_URGENTLY),
        (b"", &["no 15 0"]),
        (b"\n", &["no 15 0"]),
        (b"\ngo\n", &["no 15 0"]),
        (b"go go\ngo\n", &["no 15 0"]),
        (b"go\r\n", &["no 11 2"]),
        (b"\0\n", &["no 11 0"]),
    ] {
        assert_eq!(printed(&book, input), closed(rows), "{input:?}");
    }
}

#[test]
fn long_lines() {
    let book = first_book().bytes();
    // A line of 4,096 bytes that ends in "go", and one of 4,097.
    let most = [&[b' '; 4_094], &b"go"[..]].concat();
    let long = [&[b' '; 4_095], &b"go"[..]].concat();
    for behind in [&b""[..], b"\n", b"\ngo\n", b"\nx", &[10; 5_000]] {
        let input = [&most, behind].concat();
        assert_eq!(printed(&book, &input), closed(&GO));
        assert_eq!(printed(b"", &input), "no 10 0\n");
        let input = [&long, behind].concat();
        // The book comes behind the line's length, whatever it is.
        for book in [&book[..], b"", b"\x01", &[0; 65_536]] {
            assert_eq!(printed(book, &input), "long\n");
        }
    }
    // Neither does it matter which bytes the line has.
    for byte in [b' ', b'x', 0, 13, 255] {
        assert_eq!(printed(&book, &[byte; 4_097]), "long\n");
        assert_eq!(printed(&book, &[byte; 70_000]), "long\n");
    }
    assert_eq!(printed(&book, &[b' '; 4_096]), "no 15 0\n");
    assert_eq!(printed(&book, &[0; 4_096]), "no 11 0\n");
    assert_eq!(printed(&book, &[b'x'; 4_096]), "no 12 0\n");
    let unknown = [&[b' '; 4_094], &b"no"[..]].concat();
    assert_eq!(printed(&book, &unknown), "no 13 4094\n");
}
