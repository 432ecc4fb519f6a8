//! The cases that document 01 lists with their outcomes, the examples of
//! document 000, section 4.3.4, and those sentences of document 02's requests
//! that have landed, for all three readers.

use crate::books::{
    entry, example_4_3, example_4_4, example_4_5, first_book, record, second_book, word_ranges,
    Records,
};
use crate::readers::{Reader, INDEPENDENT, LIBRARY, TWIN};
use crate::types::{Counts, Refusal};

/// The target's number, entry numbers and partners, or a refusal.
pub type Outcome = Result<(u16, Vec<u16>, Vec<u16>), Refusal>;

const UNTOUCHED: u16 = 0xbeef;

pub const READERS: [Reader; 3] = [LIBRARY, INDEPENDENT, TWIN];

/// What all readers say of a book.
pub fn check_book(book: &[u8]) -> Result<Counts, Refusal> {
    let [outcome, others @ ..] = READERS.map(|reader| (reader.check_book)(book));
    assert_eq!([outcome; 2], others);
    outcome
}

/// What all readers say of a line.
pub fn read(book: &Records, line: &str, lent: usize) -> Outcome {
    let [outcome, others @ ..] = READERS.map(|reader| read_by(&reader, book, line, lent));
    assert_eq!([outcome.clone(), outcome.clone()], others);
    outcome
}

/// Reads with the given number of values lent and checks what must stay.
fn read_by(reader: &Reader, book: &Records, line: &str, lent: usize) -> Outcome {
    let mut answer = vec![UNTOUCHED; lent];
    let outcome = (reader.read_line)(&book.bytes(), line.as_bytes(), &mut answer);
    let written = *outcome.as_ref().unwrap_or(&0) as usize;
    assert!(answer[written..].iter().all(|value| *value == UNTOUCHED));
    outcome?;
    let n = answer[1] as usize;
    let m = answer[2 + n] as usize;
    assert_eq!(written, 3 + n + m);
    let (entries, partners) = (&answer[2..2 + n], &answer[3 + n..written]);
    reading(answer[0], entries, partners)
}

/// A line that is read.
pub fn reading(target: u16, entries: &[u16], partners: &[u16]) -> Outcome {
    Ok((target, entries.to_vec(), partners.to_vec()))
}

/// Expects a reading for the first target.
fn expect(book: &Records, line: &str, entries: &[u16], partners: &[u16]) {
    let outcome = reading(0, entries, partners);
    assert_eq!(read(book, line, 512), outcome, "{line}");
}

pub fn counts(types: u64, entries: u64, pairs: u64) -> Result<Counts, Refusal> {
    Ok(Counts {
        types,
        entries,
        pairs,
    })
}

#[test]
fn books_checked_alone() {
    assert_eq!(check_book(&first_book().bytes()), counts(4, 9, 5));
    assert_eq!(check_book(&second_book().bytes()), counts(5, 10, 6));
}

/// A line of the table that is read, its book, entries and partners.
pub type Row = (Records, &'static str, &'static [u16], &'static [u16]);

pub fn table_of_lines_that_are_read() -> [Row; 9] {
    let book = first_book;
    let meet = "I will meet him";
    [
        (book(), "fetch bed4 ward7", &[1, 2, 3], &[1, 5, 4, 3, 2]),
        (book(), "fetch bed4", &[0, 2], &[1, 3, 2]),
        (book(), "go", &[7], &[1]),
        (book(), "go urgently", &[7, 4], &[2, 1, 3]),
        (book(), "go urgently urgently", &[7, 4, 4], &[2, 1, 4, 3, 5]),
        (book(), "please go urgently", &[8, 7, 4], &[1, 5, 4, 3, 2]),
        (book(), "admit ward7", &[5, 3], &[1, 3, 2]),
        (
            second_book(),
            "log go urgently",
            &[9, 7, 4],
            &[1, 5, 4, 3, 2],
        ),
        (example_4_3(), meet, &[0, 1, 3, 4], &[2, 1, 3, 5, 4, 7, 6]),
    ]
}

pub const TABLE_OF_LINES_WITHOUT_A_READING: [&str; 5] =
    ["admit site", "go go", "fetch site", "", "   "];

#[test]
fn lines_of_the_table_are_read() {
    for (book, line, entries, partners) in table_of_lines_that_are_read() {
        expect(&book, line, entries, partners);
    }
}

#[test]
fn lines_without_a_reading() {
    for line in TABLE_OF_LINES_WITHOUT_A_READING {
        assert_eq!(read(&first_book(), line, 512), Err((15, 0)), "{line}");
        assert_eq!(read(&first_book(), line, 0), Err((15, 0)), "{line}");
    }
}

#[test]
fn other_examples_of_document_000_are_read() {
    assert!(read(&example_4_4(), "did he give books to her", 512).is_ok());
    assert!(read(&example_4_5(), "Kim mailed the letter to Sandy", 512).is_ok());
}

#[test]
fn values_lent() {
    let book = first_book();
    assert_eq!(read(&book, "fetch bed4", 7), Err((16, 8)));
    let outcome = reading(0, &[0, 2], &[1, 3, 2]);
    assert_eq!(read(&book, "fetch bed4", 8), outcome);
}

#[test]
fn words_of_a_line() {
    let words = |n: usize| vec!["please"; n - 1].join(" ") + " go";
    assert!(read(&first_book(), &words(24), 512).is_ok());
    let offset = words(25).len() as u64 - 2;
    assert_eq!(read(&first_book(), &words(25), 512), Err((12, offset)));
}

#[test]
fn exponents() {
    let book = |exponent: i8| {
        let mut book = first_book();
        book.entry(b"x", &[(0, exponent)]);
        book.bytes()
    };
    let offset = first_book().bytes().len() as u64;
    for exponent in [-8, 8] {
        assert_eq!(check_book(&book(exponent)), counts(4, 10, 5));
    }
    for exponent in [-9, 9] {
        assert_eq!(check_book(&book(exponent)), Err((6, offset)));
    }
}

/// The outcome for the first book with one more record.
fn with_record(added: Vec<u8>) -> u32 {
    let mut book = first_book();
    let offset = book.bytes().len() as u64;
    book.list.push(added);
    let (number, value) = check_book(&book.bytes()).unwrap_err();
    assert_eq!(value, offset);
    number
}

#[test]
fn smallest_number_within_a_record() {
    assert_eq!(with_record(vec![0, 0, 1]), 2);
    assert_eq!(with_record(vec![9, 0, 77, 0]), 2);
    assert_eq!(with_record(record(6, &[])), 3);
    assert_eq!(with_record(record(257, b"x")), 3);
    assert_eq!(with_record(record(1, b"1x")), 4);
    assert_eq!(with_record(entry(b"x", &[(200, 9); 13])), 4);
    assert_eq!(with_record(entry(b"x", &[(0, 9), (4, 0)])), 5);
    assert_eq!(with_record(record(2, &[0, 4])), 5);
    assert_eq!(with_record(record(4, &[4])), 5);
    assert_eq!(with_record(record(1, b"p")), 7);
}

#[test]
fn bounds_of_a_book() {
    let mut book = first_book();
    for number in 4..64 {
        book.basic_type(format!("t{number}").as_bytes());
    }
    assert_eq!(check_book(&book.bytes()), counts(64, 9, 65));
    let offset = book.bytes().len() as u64;
    let mut again = book.clone();
    again.basic_type(b"o");
    assert_eq!(check_book(&again.bytes()), Err((7, offset)));
    book.basic_type(b"t64");
    assert_eq!(check_book(&book.bytes()), Err((9, offset)));

    assert_eq!(check_book(&[]), Err((10, 0)));
    assert_eq!(check_book(&record(1, b"o")), Err((10, 5)));
    assert_eq!(check_book(&[0; 65_536]), Err((1, 0)));
    assert_eq!(check_book(&[0; 65_535]), Err((3, 0)));
}

#[test]
fn each_number_over_the_whole_line() {
    let book = first_book();
    assert_eq!(read(&book, "nobody  go\t", 512), Err((11, 10)));
    let long = "x".repeat(32);
    assert_eq!(read(&book, &format!("nobody {long}"), 512), Err((12, 7)));
    assert_eq!(read(&book, "  go nobody nowhere", 512), Err((13, 5)));
    let mut heavy = first_book();
    for _ in 0..5 {
        heavy.entry(b"x", &[(0, 0); 12]);
    }
    let line = ["x"; 9].join(" ");
    assert_eq!(read(&heavy, &line, 512), Err((14, 0)));
    assert_eq!(read(&heavy, &(line + " y"), 512), Err((13, 18)));
}

// Document 02, 2.1: letters A–Z count as their small letters when a line's word meets a book's word.

/// A way to spell the words of a line or of a book.
type Spelling = fn(&str) -> String;

/// As they are, in capitals, with a capital first, and with every second letter in capitals.
const SPELLINGS: [Spelling; 4] = [
    str::to_string,
    str::to_ascii_uppercase,
    |text| {
        let words = text.split(' ');
        let capital_first = words.map(|word| match word.split_at_checked(1) {
            Some((first, rest)) => first.to_ascii_uppercase() + rest,
            None => String::new(),
        });
        capital_first.collect::<Vec<String>>().join(" ")
    },
    |text| {
        let every_second = |(place, letter): (usize, char)| match place % 2 {
            0 => letter,
            _ => letter.to_ascii_uppercase(),
        };
        text.chars().enumerate().map(every_second).collect()
    },
];

/// The book with the words of its entries spelt in some way.
fn spelt(book: &Records, spelling: Spelling) -> Records {
    let mut bytes = book.bytes();
    for word in word_ranges(&bytes) {
        let text = std::str::from_utf8(&bytes[word.clone()]).unwrap();
        let text = spelling(text);
        bytes[word].copy_from_slice(text.as_bytes());
    }
    Records { list: vec![bytes] }
}

#[test]
fn lines_of_the_table_are_read_in_all_spellings() {
    for (book, line, entries, partners) in table_of_lines_that_are_read() {
        for in_book in SPELLINGS {
            for in_line in SPELLINGS {
                expect(&spelt(&book, in_book), &in_line(line), entries, partners);
            }
        }
    }
    let meet = spelt(&example_4_3(), str::to_ascii_uppercase);
    assert!(meet.bytes().windows(4).any(|bytes| bytes == b"WILL"));
}

#[test]
fn lines_without_a_reading_have_none_in_any_spelling() {
    for in_book in SPELLINGS {
        let book = spelt(&first_book(), in_book);
        for in_line in SPELLINGS {
            for line in TABLE_OF_LINES_WITHOUT_A_READING {
                assert_eq!(read(&book, &in_line(line), 512), Err((15, 0)), "{line}");
            }
            let unknown = in_line("go bed go");
            assert_eq!(read(&book, &unknown, 512), Err((13, 3)), "{unknown}");
        }
    }
}

#[test]
fn a_line_may_have_two_spellings_of_a_word() {
    let line = "Go URGENTLY urgently";
    expect(&first_book(), line, &[7, 4, 4], &[2, 1, 4, 3, 5]);
    let line = "PLEASE please gO";
    expect(&first_book(), line, &[8, 8, 7], &[1, 3, 2, 5, 4]);
}

/// Example 4.4 begins with a capital, which its dictionary has not. The question mark is left out: it is a byte like others.
#[test]
fn document_000s_question_is_read_as_it_stands() {
    assert!(read(&example_4_4(), "Did he give books to her", 512).is_ok());
    assert!(read(&example_4_5(), "KIM MAILED THE LETTER TO SANDY", 512).is_ok());
}

/// "Fetch" and "fetch" are one word with two entries, in book order.
#[test]
fn spellings_in_a_book_are_one_word() {
    let mut book = Records::default();
    book.basic_type(b"o");
    book.basic_type(b"p");
    book.target(0);
    book.entry(b"Fetch", &[(0, 0), (1, -1)]);
    book.entry(b"fetch", &[(0, 0)]);
    book.entry(b"FETCH", &[(0, 0)]);
    book.entry(b"bed4", &[(1, 0)]);
    assert_eq!(check_book(&book.bytes()), counts(2, 4, 2));
    for fetch in ["fetch", "Fetch", "FETCH", "fETCh"] {
        expect(&book, fetch, &[1], &[1]);
        expect(&book, &format!("{fetch} BED4"), &[0, 3], &[1, 3, 2]);
    }
}

/// The letters, each as a capital and a small one.
const LETTERS: [&[u8; 2]; 26] = [
    b"Aa", b"Bb", b"Cc", b"Dd", b"Ee", b"Ff", b"Gg", b"Hh", b"Ii", b"Jj", b"Kk", b"Ll", b"Mm",
    b"Nn", b"Oo", b"Pp", b"Qq", b"Rr", b"Ss", b"Tt", b"Uu", b"Vv", b"Ww", b"Xx", b"Yy", b"Zz",
];

/// A book of one word, which is read alone.
fn one_word(word: &[u8]) -> Records {
    let mut book = Records::default();
    book.basic_type(b"o");
    book.target(0);
    book.entry(word, &[(0, 0)]);
    book
}

/// What comes of a word in the line and a word in the book.
fn meet(in_line: &[u8], in_book: &[u8]) -> Outcome {
    let line = std::str::from_utf8(in_line).unwrap();
    read(&one_word(in_book), line, 5)
}

#[test]
fn no_two_bytes_are_alike_but_letters() {
    let read = reading(0, &[0], &[1]);
    for x in 33..=126 {
        for y in 33..=126 {
            let letters = LETTERS.contains(&&[x, y]) || LETTERS.contains(&&[y, x]);
            let alike = x == y || letters;
            let outcome = if alike { read.clone() } else { Err((13, 0)) };
            assert_eq!(meet(&[x], &[y]), outcome, "{x} {y}");
        }
    }
}

/// Pairs of letters, and of other bytes that differ in the same bit, at each place of words of each length.
#[test]
fn bytes_at_each_place_of_a_word() {
    let read = reading(0, &[0], &[1]);
    let others: [&[u8; 2]; 5] = [b"@`", b"[{", b"\\|", b"]}", b"^~"];
    for length in 1..=31 {
        for place in 0..length {
            let with = |byte: u8| {
                let mut word = vec![b'w'; length];
                word[place] = byte;
                word
            };
            for [x, y] in [b"Aa", b"Mm", b"Zz"] {
                assert_eq!(meet(&with(*x), &with(*y)), read);
                assert_eq!(meet(&with(*y), &with(*x)), read);
                assert_eq!(meet(&with(*y).to_ascii_uppercase(), &with(*x)), read);
            }
            for [x, y] in others {
                assert_eq!(meet(&with(*x), &with(*x).to_ascii_uppercase()), read);
                assert_eq!(meet(&with(*x), &with(*y)), Err((13, 0)));
                assert_eq!(meet(&with(*y), &with(*x)), Err((13, 0)));
                let capitals = with(*y).to_ascii_uppercase();
                assert_eq!(meet(&capitals, &with(*x)), Err((13, 0)));
            }
        }
    }
}

/// Byte 127, which differs from `_` as a small letter does from its capital, stands in no word.
#[test]
fn byte_127_is_no_underscore() {
    assert!(meet(b"bed_4", b"BED_4").is_ok());
    assert_eq!(meet(b"bed\x7f4", b"bed_4"), Err((11, 3)));
    assert_eq!(with_record(entry(b"bed\x7f4", &[])), 4);
}

#[test]
fn names_of_types_have_no_capitals() {
    for name in ["P", "newOne", "T4"] {
        assert_eq!(with_record(record(1, name.as_bytes())), 4);
    }
}

/// A book in which x has 32 simple types: 20 as "x" and 12 as "X".
fn two_spellings_of_x() -> Records {
    let mut book = first_book();
    book.entry(b"x", &[(0, 0); 12]);
    book.entry(b"X", &[(0, 0); 12]);
    book.entry(b"x", &[(0, 0); 8]);
    book
}

#[test]
fn simple_types_of_all_spellings_are_counted() {
    let book = two_spellings_of_x();
    for x in ["x", "X", "x X"] {
        let sixteen = [x].repeat(if x.len() == 1 { 16 } else { 8 }).join(" ");
        assert_eq!(read(&book, &sixteen, 512), Err((15, 0)));
        assert_eq!(read(&book, &(sixteen + " go"), 512), Err((14, 0)));
    }
}

#[test]
fn each_number_over_the_whole_line_in_capitals() {
    let book = two_spellings_of_x();
    let seventeen = ["X"; 17].join(" ");
    assert_eq!(read(&book, &seventeen, 512), Err((14, 0)));
    assert_eq!(read(&book, &(seventeen.clone() + " Y"), 512), Err((13, 34)));
    assert_eq!(read(&book, &(seventeen + " Y\t"), 512), Err((11, 35)));
    let long = "X".repeat(32);
    assert_eq!(read(&book, &format!("NOBODY {long}"), 512), Err((12, 7)));
    assert_eq!(read(&book, "FETCH BED4", 7), Err((16, 8)));
}
