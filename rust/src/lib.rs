//! The proved reader of order lines, behind safe functions.
//!
//! A *book* gives words their types and has up to eight targets, and a *line* is read against it: the first reading comes out, for the
//! first target that has one, or a refusal. Any bytes may stand in both, of any length. A *batch* is several lines in one buffer, read in
//! one call. Of a line without a reading it can be told which words are in the way. Nothing is kept between calls, so several threads may
//! call at once.
//!
//! ```
//! // One basic type, `o`, the word `go` of that type, and `o` as the target.
//! let book = b"\x01\0\x01\0o\x05\0\x03\0\x02go\0\0\x01\0\x04\0\0";
//! let mut answer = [0; vurzhelik::MAX_VALUES];
//!
//! let values = vurzhelik::read_line(book, b"go", &mut answer)?;
//! // For target 0, one word, of entry 0, and one simple type, which is its own partner.
//! assert_eq!(answer[..values], [0, 1, 0, 1, 1]);
//!
//! let refusal = vurzhelik::read_line(book, b"go home", &mut answer).unwrap_err();
//! assert_eq!(refusal.number, vurzhelik::refusals::UNKNOWN_WORD);
//! assert_eq!(refusal.value, 3);
//! # Ok::<(), vurzhelik::Refusal>(())
//! ```
//!
//! The crate links `crates/vurzhelik/out/libvurzhelik.a` of the repository that it stands in; `rt lib` in crates/vurzhelik proves and writes it.
//! `include/vurzhelik.h` says what its functions ask and give, and how much stack a call takes: the threads of `std` have enough.

use std::fmt;

pub mod refusals;

mod c {
    extern "C" {
        pub fn vurzhelik_version() -> u32;

        pub fn vurzhelik_check_book(
            book: *const u8,
            book_length: usize,
            value: *mut u64,
            types: *mut u64,
            entries: *mut u64,
            pairs: *mut u64,
        ) -> u32;

        pub fn vurzhelik_read_line(
            book: *const u8,
            book_length: usize,
            line: *const u8,
            line_length: usize,
            answer: *mut u16,
            answer_length: usize,
            value: *mut u64,
        ) -> u32;

        pub fn vurzhelik_words_in_the_way(
            book: *const u8,
            book_length: usize,
            line: *const u8,
            line_length: usize,
            answer: *mut u16,
            answer_length: usize,
            value: *mut u64,
            words: *mut u32,
        ) -> u32;

        pub fn vurzhelik_read_batch(
            book: *const u8,
            book_length: usize,
            lines: *const u8,
            lines_length: usize,
            answers: *mut u16,
            answers_length: usize,
            value: *mut u64,
        ) -> u32;
    }
}

/// How many targets a book has at most.
pub const MAX_TARGETS: usize = 8;

/// How many values hold any answer: the target's number, n and m, an entry for each of 24 words, a partner for each of 12 simple types a
/// word.
pub const MAX_VALUES: usize = 3 + 24 + 24 * 12;

/// How many lines a batch has at most.
pub const MAX_LINES: usize = 32;

/// How many bytes a batch has at most, those that close its lines included.
pub const MAX_BATCH: usize = 65_535;

/// How many values hold the answers of any batch: before each answer stand a count and a number.
pub const MAX_BATCH_VALUES: usize = MAX_LINES * (2 + MAX_VALUES);

/// What the check of an accepted book returns.
#[derive(Clone, Copy, Debug, PartialEq, Eq)]
pub struct Counts {
    /// The number of basic types.
    pub types: u64,
    /// The number of entries.
    pub entries: u64,
    /// The number of pairs p ≤ q in the closed order, p ≤ p included.
    pub pairs: u64,
}

/// Why a book, a line or a batch is refused.
#[derive(Clone, Copy, Debug, PartialEq, Eq)]
pub struct Refusal {
    /// The number of the cause, 1 to 21, as listed in [`refusals`].
    pub number: u32,
    /// The value returned with it: an offset, a length, a number of values, or 0.
    pub value: u64,
}

impl fmt::Display for Refusal {
    fn fmt(&self, f: &mut fmt::Formatter<'_>) -> fmt::Result {
        write!(
            f,
            "{} (refusal {}, value {})",
            refusals::cause(self.number),
            self.number,
            self.value
        )
    }
}

impl std::error::Error for Refusal {}

/// Why [`words_in_the_way`] refuses a book or a line, and which of the line's words are in the way.
#[derive(Clone, Copy, Debug, PartialEq, Eq)]
pub struct InTheWay {
    /// Why it is refused.
    pub refusal: Refusal,
    /// With [`refusals::NO_READING`] and no other number: bit k is set where the line without word k + 1 has a reading.
    pub words: Option<u32>,
}

impl fmt::Display for InTheWay {
    fn fmt(&self, f: &mut fmt::Formatter<'_>) -> fmt::Result {
        self.refusal.fmt(f)?;
        let Some(words) = self.words else {
            return Ok(());
        };
        write!(f, ", words in the way:")?;
        if words == 0 {
            return write!(f, " none");
        }
        let mut in_the_way = (0..u32::BITS).filter(|k| words >> k & 1 == 1);
        in_the_way.try_for_each(|k| write!(f, " {}", k + 1))
    }
}

impl std::error::Error for InTheWay {}

/// The version of the library, 10000 times the major number, 100 times the minor one and the patch.
pub fn version() -> u32 {
    // Safety: the function has no parameters and asks nothing.
    unsafe { c::vurzhelik_version() }
}

/// Checks a book alone.
pub fn check_book(book: &[u8]) -> Result<Counts, Refusal> {
    let mut value = 0;
    let mut counts = Counts {
        types: 0,
        entries: 0,
        pairs: 0,
    };
    // Safety: each pointer is that of a reference or a slice, so it is not null, a slice's is passed with its length, and no two of those
    // written to overlap.
    let number = unsafe {
        c::vurzhelik_check_book(
            book.as_ptr(),
            book.len(),
            &mut value,
            &mut counts.types,
            &mut counts.entries,
            &mut counts.pairs,
        )
    };
    match number {
        0 => Ok(counts),
        _ => Err(Refusal { number, value }),
    }
}

/// Reads a line against a book. The answer then begins with the first reading: the number of the target that it is for, counted from 0 as
/// the book's targets stand, n, the n entry numbers, m, the m partners. The first target that has a reading is taken. What is returned is
/// how many values that is; those behind them are as they were. A refusal leaves the whole answer as it was. The letters A to Z of a word
/// count as a to z, in the line and in the book.
pub fn read_line(book: &[u8], line: &[u8], answer: &mut [u16]) -> Result<usize, Refusal> {
    let mut value = 0;
    // Safety: as in `check_book`.
    let number = unsafe {
        c::vurzhelik_read_line(
            book.as_ptr(),
            book.len(),
            line.as_ptr(),
            line.len(),
            answer.as_mut_ptr(),
            answer.len(),
            &mut value,
        )
    };
    match number {
        0 => Ok(value as usize),
        _ => Err(Refusal { number, value }),
    }
}

/// Reads a line against a book, as [`read_line`] does, and tells which words are in the way of a line without a reading: those without
/// which it has one. There may be none, and each of several words may be such a word.
///
/// ```
/// # let book = b"\x01\0\x01\0o\x05\0\x03\0\x02go\0\0\x01\0\x04\0\0";
/// let mut answer = [0; vurzhelik::MAX_VALUES];
/// let refused = vurzhelik::words_in_the_way(book, b"go go", &mut answer).unwrap_err();
/// assert_eq!(refused.refusal.number, vurzhelik::refusals::NO_READING);
/// // Without either word the line is "go", which has a reading.
/// assert_eq!(refused.words, Some(0b11));
/// ```
pub fn words_in_the_way(book: &[u8], line: &[u8], answer: &mut [u16]) -> Result<usize, InTheWay> {
    let mut value = 0;
    let mut words = 0;
    // Safety: as in `check_book`.
    let number = unsafe {
        c::vurzhelik_words_in_the_way(
            book.as_ptr(),
            book.len(),
            line.as_ptr(),
            line.len(),
            answer.as_mut_ptr(),
            answer.len(),
            &mut value,
            &mut words,
        )
    };
    match number {
        0 => Ok(value as usize),
        _ => Err(InTheWay {
            refusal: Refusal { number, value },
            words: (number == refusals::NO_READING).then_some(words),
        }),
    }
}

/// Reads up to 32 lines, each closed by byte 10, against a book, and returns how many there are. The answers then begin with a part for
/// each line: how many values follow, the number of the line's refusal or 0, and the refusal's value or the answer, each as [`read_line`]
/// gives it where [`MAX_VALUES`] are lent. [`parts`] takes them apart. Values behind them are as they were. A refusal of the batch or of
/// the book leaves all answers as they were.
///
/// ```
/// # let book = b"\x01\0\x01\0o\x05\0\x03\0\x02go\0\0\x01\0\x04\0\0";
/// let mut answers = [0; vurzhelik::MAX_BATCH_VALUES];
/// let lines = vurzhelik::read_batch(book, b"go\ngo home\n", &mut answers)?;
/// assert_eq!(lines, 2);
/// assert_eq!(answers[..10], [6, 0, 0, 1, 0, 1, 1, 2, 13, 3]);
/// # Ok::<(), vurzhelik::Refusal>(())
/// ```
pub fn read_batch(book: &[u8], lines: &[u8], answers: &mut [u16]) -> Result<usize, Refusal> {
    let mut value = 0;
    // Safety: as in `check_book`.
    let number = unsafe {
        c::vurzhelik_read_batch(
            book.as_ptr(),
            book.len(),
            lines.as_ptr(),
            lines.len(),
            answers.as_mut_ptr(),
            answers.len(),
            &mut value,
        )
    };
    match number {
        0 => Ok(value as usize),
        _ => Err(Refusal { number, value }),
    }
}

/// The answer or the refusal of each of so many lines, from the answers that [`read_batch`] gave. Panics on other values.
pub fn parts(answers: &[u16], lines: usize) -> impl Iterator<Item = Result<&[u16], Refusal>> {
    let mut rest = answers;
    (0..lines).map(move |_| {
        let (part, behind) = rest[1..].split_at(rest[0].into());
        rest = behind;
        match part[0] {
            0 => Ok(&part[1..]),
            number => Err(Refusal {
                number: number.into(),
                value: part[1].into(),
            }),
        }
    })
}

#[cfg(test)]
mod tests {
    use super::*;

    /// Document 01, "A book to try": the first book.
    const BOOK: &[u8] = include_bytes!("../../crates/reading/data/book.bin");

    fn refused<T>(number: u32, value: u64) -> Result<T, Refusal> {
        Err(Refusal { number, value })
    }

    #[test]
    fn book_is_checked() {
        let counts = Counts {
            types: 4,
            entries: 9,
            pairs: 5,
        };
        assert_eq!(check_book(BOOK), Ok(counts));
        assert_eq!(check_book(&[]), refused(refusals::NO_TARGET, 0));
        assert_eq!(
            check_book(&[0; 65_536]),
            refused(refusals::BOOK_TOO_LONG, 0)
        );
    }

    #[test]
    fn line_is_read() {
        let mut answer = [7; MAX_VALUES];
        assert_eq!(read_line(BOOK, b"fetch bed4 ward7", &mut answer), Ok(11));
        assert_eq!(answer[..11], [0, 3, 1, 2, 3, 5, 1, 5, 4, 3, 2]);
        assert!(answer[11..].iter().all(|value| *value == 7));
    }

    /// The book with so many targets more, of type 1.
    fn with_targets(more: usize) -> Vec<u8> {
        [BOOK, &b"\x01\0\x04\0\x01".repeat(more)].concat()
    }

    #[test]
    fn line_is_read_for_the_first_target_that_has_a_reading() {
        let book = with_targets(MAX_TARGETS - 1);
        let mut answer = [7; 6];
        assert_eq!(read_line(&book, b"go", &mut answer), Ok(5));
        assert_eq!(answer, [0, 1, 7, 1, 1, 7]);
        assert_eq!(read_line(&book, b"bed4", &mut answer), Ok(5));
        assert_eq!(answer, [1, 1, 2, 1, 1, 7]);
    }

    #[test]
    fn ninth_target_is_refused() {
        let offset = with_targets(MAX_TARGETS - 1).len() as u64;
        let ninth = refused(refusals::TOO_MANY_TARGETS, offset);
        assert_eq!(check_book(&with_targets(MAX_TARGETS)), ninth);
    }

    /// The book with one entry more, of the word `x`, whose type is a text.
    fn with_text(text: &[u8]) -> Vec<u8> {
        let length = (2 + text.len()) as u8;
        [BOOK, &[length, 0, 5, 0, 1], b"x", text].concat()
    }

    #[test]
    fn line_is_read_through_a_text() {
        let book = with_text(b"(o/w)/p");
        let counts = Counts {
            types: 4,
            entries: 10,
            pairs: 5,
        };
        assert_eq!(check_book(&book), Ok(counts));
        let mut answer = [7; MAX_VALUES];
        assert_eq!(read_line(&book, b"x bed4 ward7", &mut answer), Ok(11));
        assert_eq!(answer[..11], [0, 3, 9, 2, 3, 5, 1, 5, 4, 3, 2]);
        let mut answers = [7; MAX_BATCH_VALUES];
        assert_eq!(read_batch(&book, b"x bed4 site\nx\n", &mut answers), Ok(2));
        let parts: Vec<_> = parts(&answers, 2).collect();
        let none = refused(refusals::NO_READING, 0);
        assert_eq!(parts, [Ok(&[0, 3, 9, 2, 6, 5, 1, 5, 4, 3, 2][..]), none]);
    }

    #[test]
    fn texts_are_refused() {
        let long = b"((o/o)/(o/o))/((((o/o)/(o/o))/(o/o))/((o/o)/o))";
        let offset = BOOK.len() as u64;
        let texts: [(&[u8], u32); 5] = [
            (b"(((((((o)))))))", refusals::BRACKETS_TOO_DEEP),
            (b")(((((((", refusals::NOT_A_TYPE),
            (b"o/p/w", refusals::NOT_A_TYPE),
            (b"o/nobody", refusals::UNDECLARED_TYPE),
            (long, refusals::TYPE_TOO_LONG),
        ];
        for (text, number) in texts {
            let book = with_text(text);
            assert_eq!(check_book(&book), refused(number, offset));
            let mut answer = [7; 7];
            assert_eq!(
                read_line(&book, b"go", &mut answer),
                refused(number, offset)
            );
            assert_eq!(
                read_batch(&book, b"go\n", &mut answer),
                refused(number, offset)
            );
            assert_eq!(answer, [7; 7]);
        }
    }

    #[test]
    fn refused_line_leaves_the_answer() {
        let mut answer = [7; 7];
        let short = refused(refusals::BUFFER_TOO_SHORT, 8);
        assert_eq!(read_line(BOOK, b"fetch bed4", &mut answer), short);
        let none = refused(refusals::NO_READING, 0);
        assert_eq!(read_line(BOOK, b"admit site", &mut answer), none);
        assert_eq!(answer, [7; 7]);
    }

    /// The refusal of a line, and which of its words are in the way.
    fn in_the_way<T>(number: u32, value: u64, words: Option<u32>) -> Result<T, InTheWay> {
        Err(InTheWay {
            refusal: Refusal { number, value },
            words,
        })
    }

    #[test]
    fn words_in_the_way_are_told() {
        let lines: [(&[u8], u32); 5] = [
            (b"bed4 go", 1),
            (b"go GO", 3),
            (b"fetch bed4 site ward7", 12),
            (b"admit site", 0),
            (b"", 0),
        ];
        for (line, words) in lines {
            let mut answer = [7; 7];
            let told = in_the_way(refusals::NO_READING, 0, Some(words));
            assert_eq!(words_in_the_way(BOOK, line, &mut answer), told);
            assert_eq!(words_in_the_way(BOOK, line, &mut []), told);
            assert_eq!(answer, [7; 7]);
        }
    }

    #[test]
    fn other_lines_get_what_they_get() {
        let mut answer = [7; 7];
        let short = in_the_way(refusals::BUFFER_TOO_SHORT, 8, None);
        assert_eq!(words_in_the_way(BOOK, b"fetch bed4", &mut answer), short);
        let unknown = in_the_way(refusals::UNKNOWN_WORD, 3, None);
        assert_eq!(words_in_the_way(BOOK, b"go nobody", &mut answer), unknown);
        let no_target = in_the_way(refusals::NO_TARGET, 0, None);
        assert_eq!(words_in_the_way(&[], b"go go", &mut answer), no_target);
        assert_eq!(answer, [7; 7]);
        assert_eq!(words_in_the_way(BOOK, b"go", &mut answer), Ok(5));
        assert_eq!(answer, [0, 1, 7, 1, 1, 7, 7]);
    }

    /// The number of the words in the way, 9 before, after a line that is read through the library's own function.
    fn words_after(line: &[u8]) -> u32 {
        let (mut value, mut words) = (7, 9);
        let mut answer = [7; 7];
        // Safety: as in `check_book`.
        unsafe {
            c::vurzhelik_words_in_the_way(
                BOOK.as_ptr(),
                BOOK.len(),
                line.as_ptr(),
                line.len(),
                answer.as_mut_ptr(),
                answer.len(),
                &mut value,
                &mut words,
            )
        };
        words
    }

    #[test]
    fn words_are_written_with_fifteen_alone() {
        assert_eq!(words_after(b"go go"), 3);
        assert_eq!(words_after(b"site"), 0);
        for line in [&b"go"[..], b"fetch bed4", b"go nobody", b"\t"] {
            assert_eq!(words_after(line), 9);
        }
    }

    #[test]
    fn batch_is_read() {
        let mut answers = [7; MAX_BATCH_VALUES];
        let lines = b"fetch bed4\n\ngo nobody\nGO\n";
        assert_eq!(read_batch(BOOK, lines, &mut answers), Ok(4));
        let parts: Vec<_> = parts(&answers, 4).collect();
        let expected: [Result<&[u16], Refusal>; 4] = [
            Ok(&[0, 2, 0, 2, 3, 1, 3, 2]),
            refused(refusals::NO_READING, 0),
            refused(refusals::UNKNOWN_WORD, 3),
            Ok(&[0, 1, 7, 1, 1]),
        ];
        assert_eq!(parts, expected);
        assert!(answers[23..].iter().all(|value| *value == 7));
    }

    #[test]
    fn refused_batch_leaves_the_answers() {
        let mut answers = [7; 9];
        let bad = refused(refusals::BAD_BATCH, 0);
        assert_eq!(read_batch(BOOK, b"go\ngo", &mut answers), bad);
        let many = [b'\n'; MAX_LINES + 1];
        assert_eq!(read_batch(BOOK, &many, &mut answers), bad);
        let long = [b' '; MAX_BATCH + 1];
        assert_eq!(read_batch(BOOK, &long, &mut answers), bad);
        let no_target = refused(refusals::NO_TARGET, 0);
        assert_eq!(read_batch(&[], b"go\n", &mut answers), no_target);
        let short = refused(refusals::ANSWERS_TOO_LONG, 10);
        assert_eq!(read_batch(BOOK, b"fetch bed4\n", &mut answers), short);
        assert_eq!(answers, [7; 9]);
    }

    #[test]
    fn all_lists_may_be_empty() {
        let no_target = refused(refusals::NO_TARGET, 0);
        assert_eq!(read_line(&[], &[], &mut []), no_target);
        let none = refused(refusals::NO_READING, 0);
        assert_eq!(read_line(BOOK, &[], &mut []), none);
        assert_eq!(read_batch(&[], &[], &mut []), no_target);
        assert_eq!(read_batch(BOOK, &[], &mut []), Ok(0));
    }

    #[test]
    fn refused_book_leaves_the_counts() {
        let (mut value, mut types, mut entries, mut pairs) = (7, 8, 9, 10);
        let book: &[u8] = &[];
        // Safety: as in `check_book`.
        let number = unsafe {
            c::vurzhelik_check_book(
                book.as_ptr(),
                0,
                &mut value,
                &mut types,
                &mut entries,
                &mut pairs,
            )
        };
        assert_eq!((number, value, types, entries, pairs), (10, 0, 8, 9, 10));
    }

    #[test]
    fn refusal_is_said_in_words() {
        let refusal = check_book(&[]).unwrap_err();
        let text = "book ends without a target (refusal 10, value 0)";
        assert_eq!(refusal.to_string(), text);
    }

    #[test]
    fn words_in_the_way_are_said_in_words() {
        let said = |line: &[u8]| {
            let refused = words_in_the_way(BOOK, line, &mut []).unwrap_err();
            refused.to_string()
        };
        let none = "no reading for any target (refusal 15, value 0), words in the way:";
        assert_eq!(said(b"fetch bed4 site ward7"), format!("{none} 3 4"));
        assert_eq!(said(b"admit site"), format!("{none} none"));
        let short = "answer buffer too short (refusal 16, value 5)";
        assert_eq!(said(b"go"), short);
    }

    /// The number that the header gives a name.
    fn in_header(name: &str) -> u64 {
        let header = include_str!("../../include/vurzhelik.h");
        let number = |line: &str| {
            let mut words = line.split_whitespace().filter(|word| *word != "=");
            let named = words.any(|word| word == format!("VURZHELIK_{name}"));
            let digits = words.next().filter(|_| named)?;
            digits.trim_end_matches(',').parse().ok()
        };
        header.lines().find_map(number).expect(name)
    }

    /// A constant's name as that of a variant.
    fn in_camel_case(name: &str) -> String {
        name.split('_')
            .flat_map(|word| {
                let (first, rest) = word.split_at(1);
                [first.to_string(), rest.to_lowercase()]
            })
            .collect()
    }

    #[test]
    fn refusals_are_those_of_the_source() {
        let source = include_str!("../../crates/figures/src/refusals.rt");
        let causes: Vec<&str> = source
            .lines()
            .map(str::trim)
            .filter(|line| line.ends_with(',') && line.contains(" = "))
            .collect();
        let listed =
            refusals::LIST.map(|(number, name, _)| format!("{} = {number},", in_camel_case(name)));
        assert_eq!(causes, listed);
    }

    #[test]
    fn header_has_the_same_numbers() {
        assert_eq!(in_header("OK"), 0);
        for (number, name, _) in refusals::LIST {
            assert_eq!(in_header(name), u64::from(number), "{name}");
        }
        for (name, number) in [
            ("MAX_TARGETS", MAX_TARGETS),
            ("MAX_VALUES", MAX_VALUES),
            ("MAX_LINES", MAX_LINES),
            ("MAX_BATCH", MAX_BATCH),
            ("MAX_BATCH_VALUES", MAX_BATCH_VALUES),
        ] {
            assert_eq!(in_header(name), number as u64, "{name}");
        }
    }

    #[test]
    fn library_header_and_crate_are_of_one_version() {
        let parts = ["MAJOR", "MINOR", "PATCH"].map(|part| in_header(&format!("VERSION_{part}")));
        let [major, minor, patch] = parts;
        assert_eq!(u64::from(version()), 10_000 * major + 100 * minor + patch);
        let package = env!("CARGO_PKG_VERSION");
        assert_eq!(package, format!("{major}.{minor}.{patch}"));
    }
}
