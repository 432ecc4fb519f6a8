//! Books with several targets by the sentences of document 02's request 2.4,
//! worked out by hand, for all three readers.

use crate::books::{first_book, record, Records};
use crate::document_cases::{
    check_book, counts, read, reading, table_of_lines_that_are_read,
    TABLE_OF_LINES_WITHOUT_A_READING,
};

const O: u8 = 0;
const N: u8 = 1;
const Q: u8 = 2;
const P: u8 = 3;
const T: u8 = 4;

/// What the entries of the book below need beside its targets: orders o, notes n, questions q, and n ≤ t, o ≤ t.
fn types() -> Records {
    let mut book = Records::default();
    for name in ["o", "n", "q", "p", "t"] {
        book.basic_type(name.as_bytes());
    }
    book.pair(N, T);
    book.pair(O, T);
    book
}

fn add_entries(book: &mut Records) {
    book.entry(b"go", &[(N, 0)]);
    book.entry(b"go", &[(O, 0)]);
    book.entry(b"ask", &[(Q, 0)]);
    book.entry(b"now", &[(O, 1), (O, 0)]);
    book.entry(b"now", &[(N, 1), (N, 0)]);
    book.entry(b"fetch", &[(O, 0), (P, -1)]);
    book.entry(b"bed4", &[(P, 0)]);
    book.entry(b"both", &[(N, 0), (T, -1), (T, 0), (T, 1), (O, 0)]);
    book.entry(b"long", &[(N, 0)]);
    book.entry(b"long", &[(O, 0), (P, -1), (P, 0)]);
}

/// The book with these targets, before its entries.
fn book(targets: &[u8]) -> Records {
    let mut book = types();
    for target in targets {
        book.target(*target);
    }
    add_entries(&mut book);
    book
}

/// For target o "go" has entry 1 alone, for n entry 0 alone.
#[test]
fn first_target_wins_against_smaller_entries() {
    assert_eq!(read(&book(&[O, N]), "go", 5), reading(0, &[1], &[1]));
    assert_eq!(read(&book(&[N, O]), "go", 5), reading(0, &[0], &[1]));
    let now = |targets| read(&book(targets), "go now", 8);
    assert_eq!(now(&[O, N]), reading(0, &[1, 3], &[2, 1, 3]));
    assert_eq!(now(&[N, O]), reading(0, &[0, 4], &[2, 1, 3]));
}

#[test]
fn later_target_where_the_first_has_no_reading() {
    assert_eq!(read(&book(&[Q, O]), "go", 5), reading(1, &[1], &[1]));
    assert_eq!(read(&book(&[Q, P, N, O]), "go", 5), reading(2, &[0], &[1]));
    let fetch = read(&book(&[N, Q, O]), "fetch bed4", 8);
    assert_eq!(fetch, reading(2, &[5, 6], &[1, 3, 2]));
    let now = read(&book(&[Q, N]), "go now", 8);
    assert_eq!(now, reading(1, &[0, 4], &[2, 1, 3]));
}

#[test]
fn no_reading_for_any_target() {
    for lent in [0, 512] {
        assert_eq!(read(&book(&[O, N]), "ask", lent), Err((15, 0)));
        assert_eq!(read(&book(&[Q, P]), "go now", lent), Err((15, 0)));
        assert_eq!(read(&book(&[O, N, Q, P, T]), "", lent), Err((15, 0)));
        assert_eq!(read(&book(&[O, N, Q, P, T]), "go ask", lent), Err((15, 0)));
    }
}

#[test]
fn equal_targets() {
    assert_eq!(read(&book(&[O, O]), "go", 5), reading(0, &[1], &[1]));
    assert_eq!(read(&book(&[Q, O, O]), "go", 5), reading(1, &[1], &[1]));
    assert_eq!(read(&book(&[Q, Q, O]), "go", 5), reading(2, &[1], &[1]));
    assert_eq!(read(&book(&[N; 8]), "go", 5), reading(0, &[0], &[1]));
    assert_eq!(read(&book(&[Q; 8]), "go", 5), Err((15, 0)));
}

/// n and o stand below t, and for t "go" may have either entry.
#[test]
fn target_below_another() {
    assert_eq!(read(&book(&[O, T]), "go", 5), reading(0, &[1], &[1]));
    assert_eq!(read(&book(&[T, O]), "go", 5), reading(0, &[0], &[1]));
    assert_eq!(read(&book(&[Q, T, N]), "go", 5), reading(1, &[0], &[1]));
    let fetch = read(&book(&[N, T, O]), "fetch bed4", 8);
    assert_eq!(fetch, reading(1, &[5, 6], &[1, 3, 2]));
}

/// In n t^l t t^r o either end may be left, where it fits the target.
#[test]
fn partners_are_those_for_the_target() {
    let both = |targets| read(&book(targets), "both", 9);
    let (n_left, o_left) = ([1, 5, 4, 3, 2], [4, 3, 2, 1, 5]);
    assert_eq!(both(&[N]), reading(0, &[7], &n_left));
    assert_eq!(both(&[O]), reading(0, &[7], &o_left));
    assert_eq!(both(&[T]), reading(0, &[7], &n_left));
    assert_eq!(both(&[O, N]), reading(0, &[7], &o_left));
    assert_eq!(both(&[O, T]), reading(0, &[7], &o_left));
    assert_eq!(both(&[T, O]), reading(0, &[7], &n_left));
    assert_eq!(both(&[Q, O, N]), reading(1, &[7], &o_left));
}

#[test]
fn values_lent() {
    let fetch = |lent| read(&book(&[N, Q, O]), "fetch bed4", lent);
    for lent in 0..8 {
        assert_eq!(fetch(lent), Err((16, 8)));
    }
    assert_eq!(fetch(8), reading(2, &[5, 6], &[1, 3, 2]));
    assert_eq!(fetch(9), reading(2, &[5, 6], &[1, 3, 2]));
}

/// For o "long" takes 7 values, for n only 5.
#[test]
fn values_needed_are_those_of_the_first_target() {
    let long = |targets, lent| read(&book(targets), "long", lent);
    for lent in [0, 4, 5, 6] {
        assert_eq!(long(&[O, N], lent), Err((16, 7)));
    }
    assert_eq!(long(&[O, N], 7), reading(0, &[9], &[1, 3, 2]));
    assert_eq!(long(&[N, O], 4), Err((16, 5)));
    assert_eq!(long(&[N, O], 5), reading(0, &[8], &[1]));
}

#[test]
fn up_to_eight_targets() {
    let seven = [Q, P, Q, Q, P, P, Q];
    for last in [O, N, T] {
        let eight = book(&[&seven[..], &[last]].concat());
        // 5 types, each at or below itself, and 2 pairs.
        assert_eq!(check_book(&eight.bytes()), counts(5, 10, 7));
        let entry = if last == O { 1 } else { 0 };
        assert_eq!(read(&eight, "go", 5), reading(7, &[entry], &[1]));
    }
    for count in 1..=8 {
        assert_eq!(
            check_book(&book(&[T; 8][..count]).bytes()),
            counts(5, 10, 7)
        );
    }
}

/// What comes of a book of eight targets with one more record, whose offset is returned: its number, for the book alone and for a line.
fn with_ninth(ninth: Vec<u8>) -> u32 {
    let mut book = book(&[O, N, Q, P, T, O, O, N]);
    let offset = book.bytes().len() as u64;
    book.list.push(ninth);
    let (number, value) = check_book(&book.bytes()).unwrap_err();
    assert_eq!(value, offset);
    assert_eq!(read(&book, "go", 512), Err((number, offset)));
    number
}

#[test]
fn ninth_target() {
    for target in [O, N, Q, P, T] {
        assert_eq!(with_ninth(record(4, &[target])), 8);
    }
    assert_eq!(with_ninth(record(4, &[5])), 5);
    assert_eq!(with_ninth(record(4, &[255])), 5);
    assert_eq!(with_ninth(record(4, &[])), 4);
    assert_eq!(with_ninth(record(4, &[O, O])), 4);
    assert_eq!(with_ninth(record(4, &[255, 255])), 4);
    assert_eq!(with_ninth(record(260, &[O])), 3);
    assert_eq!(with_ninth(record(4, &[O])[..4].to_vec()), 2);
}

/// The ninth record of kind 4 is refused, wherever it stands, and what stands behind it is not looked at.
#[test]
fn ninth_target_among_other_records() {
    let mut records = types();
    let mut offset = 0;
    for number in 0..10 {
        offset = if number == 8 {
            records.bytes().len()
        } else {
            offset
        };
        records.target(number % 5);
        records.entry(b"go", &[(O, 0)]);
    }
    records.list.push(record(9, &[]));
    assert_eq!(check_book(&records.bytes()), Err((8, offset as u64)));
}

/// A bad target among the first eight is refused before a ninth is met.
#[test]
fn bad_target_before_the_ninth() {
    let mut records = types();
    let offset = records.bytes().len() as u64;
    records.target(5);
    for _ in 0..9 {
        records.target(O);
    }
    assert_eq!(check_book(&records.bytes()), Err((5, offset)));
}

/// Targets are numbered as they stand, whatever stands between them.
#[test]
fn targets_among_other_records() {
    let mut records = Records::default();
    records.basic_type(b"o");
    records.target(0);
    records.basic_type(b"n");
    records.entry(b"go", &[(1, 0)]);
    records.target(1);
    records.entry(b"stop", &[(1, 1), (1, 0)]);
    records.basic_type(b"q");
    records.entry(b"ask", &[(2, 0)]);
    records.target(2);
    assert_eq!(check_book(&records.bytes()), counts(3, 3, 3));
    assert_eq!(read(&records, "go", 5), reading(1, &[0], &[1]));
    assert_eq!(
        read(&records, "go stop", 8),
        reading(1, &[0, 1], &[2, 1, 3])
    );
    assert_eq!(read(&records, "ask", 5), reading(2, &[2], &[1]));
    // A pair behind the targets counts for them: now q ≤ o.
    records.pair(2, 0);
    assert_eq!(read(&records, "ask", 5), reading(0, &[2], &[1]));
    assert_eq!(read(&records, "go", 5), reading(1, &[0], &[1]));
}

/// 24 words with 512 simple types in all. The choice has 287, o and o^r by turns: each o is linked to the o^r behind it, and the last is
/// left.
#[test]
fn longest_line_with_eight_targets() {
    let by_turns = [(O, 0), (O, 1)].repeat(6);
    let book = |targets: [u8; 8]| {
        let mut book = types();
        for target in targets {
            book.target(target);
        }
        book.entry(b"w", &[(P, 5); 9]);
        book.entry(b"w", &by_turns);
        book.entry(b"last", &[(P, 5); 12]);
        book.entry(b"last", &[(P, 5); 6]);
        book.entry(b"last", &by_turns[..11]);
        book
    };
    let line = "w ".repeat(23) + "last";
    let entries = [[1; 23].to_vec(), vec![4]].concat();
    let links = (1..=143).flat_map(|link| [2 * link, 2 * link - 1]);
    let partners: Vec<u16> = links.chain([287]).collect();
    let (late, equal) = ([Q, P, N, Q, P, N, Q, O], [O; 8]);
    // 3 + 24 + 287 values.
    let outcome = reading(7, &entries, &partners);
    assert_eq!(read(&book(late), &line, 314), outcome);
    assert_eq!(read(&book(late), &line, 313), Err((16, 314)));
    let outcome = reading(0, &entries, &partners);
    assert_eq!(read(&book(equal), &line, 314), outcome);
    assert_eq!(read(&book([Q; 8]), &line, 314), Err((15, 0)));
    let mut heavier = book(late);
    heavier.entry(b"last", &[(O, 0)]);
    assert_eq!(read(&heavier, &line, 314), Err((14, 0)));
}

/// The table's lines are read as before when more targets stand behind the book's own.
#[test]
fn more_targets_behind_the_first() {
    for (mut book, line, entries, partners) in table_of_lines_that_are_read() {
        for target in [3, 1, 2, 0, 0] {
            book.target(target);
            let outcome = reading(0, entries, partners);
            assert_eq!(read(&book, line, 512), outcome, "{line}");
        }
    }
    let mut book = first_book();
    for target in [1, 2, 3] {
        book.target(target);
        for line in TABLE_OF_LINES_WITHOUT_A_READING {
            assert_eq!(read(&book, line, 512), Err((15, 0)), "{line}");
        }
    }
    assert_eq!(read(&book, "bed4", 5), reading(1, &[2], &[1]));
    // u ≤ w, and w is the earlier target.
    assert_eq!(read(&book, "ward7", 5), reading(2, &[3], &[1]));
    assert_eq!(read(&book, "site", 5), reading(2, &[6], &[1]));
}
