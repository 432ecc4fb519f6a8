//! Books and lines to time: a typical book with its lines and a batch of such, lines at the bounds where much contracts with much,
//! books full of entries of one word or of words alike, the dearest line that a search has found, and books and lines in slash notation
//! beside the same by numbers. Lines have one target, some of them again eight; the dearest line has eight, and again one. A sample's
//! name ends with whether its line reads.
mod dearest;
mod full;
mod hard;
mod slashed;
mod typical;

pub use full::full;
pub use hard::{growth, hard};
pub use slashed::slashed;
pub use typical::{batch, typical};

/// A simple type: a basic type's number and an exponent.
type Simple = (u8, i8);

/// A book and a line to read against it.
pub struct Sample {
    pub name: String,
    pub book: Vec<u8>,
    pub line: Vec<u8>,
}

/// A book and lines to read against it, together or one by one.
pub struct BatchSample {
    pub book: Vec<u8>,
    pub lines: Vec<Vec<u8>>,
}

impl BatchSample {
    /// The lines in one buffer, each closed.
    pub fn together(&self) -> Vec<u8> {
        let closed = self.lines.iter().flat_map(|line| [line, &b"\n"[..]]);
        closed.flatten().copied().collect()
    }
}

/// The same kind of line for several numbers of simple types.
pub struct Growth {
    pub name: String,
    pub steps: Vec<(usize, Sample)>,
}

/// All samples, those of growth last.
pub fn all() -> Vec<Sample> {
    let mut samples = typical();
    samples.extend(hard());
    samples.extend(full());
    samples.extend(slashed());
    let steps = growth().into_iter().flat_map(|growth| growth.steps);
    samples.extend(steps.map(|(_, sample)| sample));
    samples
}

/// The typical lines and the hard ones that have no reading.
pub fn unread() -> Vec<Sample> {
    let mut samples = typical();
    samples.extend(hard());
    samples.retain(|sample| sample.name.ends_with("none"));
    samples
}

/// Books to check alone, by name. A book in slash notation stands right behind the same by numbers.
pub fn books() -> Vec<(String, Vec<u8>)> {
    let (hard, full) = (hard(), full());
    let alike = |sample: &&Sample| sample.name.starts_with("1024 words alike");
    let alike = full.iter().find(alike).expect("a sample of that name");
    let mut books = Vec::new();
    for twofold in slashed::twofold_books() {
        let name = format!("{}, in slashes", twofold.name);
        books.push((twofold.name.to_string(), twofold.by_numbers));
        books.push((name, twofold.in_slashes));
    }
    books.extend([
        ("64 types in a cycle".to_string(), hard[1].book.clone()),
        (
            "1024 empty entries, 1 byte".to_string(),
            full[0].book.clone(),
        ),
        ("1024 words alike, 31 bytes".to_string(), alike.book.clone()),
    ]);
    books
}

#[cfg(test)]
mod tests {
    use super::typical::typical_book;
    use super::*;
    use crate::books::{kind_of, record_ranges};
    use crate::random::Random;
    use crate::readers::TWIN;

    /// Whether the line has the outcome that the sample's name ends with.
    fn as_named(sample: &Sample) {
        let mut answer = [0; 512];
        let result = (TWIN.read_line)(&sample.book, &sample.line, &mut answer);
        if sample.name.ends_with("reads") {
            assert!(result.is_ok(), "{}: {result:?}", sample.name);
        } else {
            assert!(sample.name.ends_with("none"));
            assert_eq!(result, Err((15, 0)), "{}", sample.name);
        }
    }

    #[test]
    fn samples_are_as_named() {
        for sample in all() {
            as_named(&sample);
        }
    }

    #[test]
    fn batch_has_32_lines_of_which_24_read() {
        let batch = batch();
        assert_eq!(batch.lines.len(), 32);
        let read = |line: &&Vec<u8>| (TWIN.read_line)(&batch.book, line, &mut [0; 512]).is_ok();
        assert_eq!(batch.lines.iter().filter(read).count(), 24);
    }

    /// How many records of a kind a book has.
    fn count_of_kind(book: &[u8], kind: u16) -> usize {
        let mut records = record_ranges(book);
        records.retain(|range| kind_of(&book[range.clone()]) == kind);
        records.len()
    }

    #[test]
    fn books_in_slashes_are_checked_as_those_by_numbers() {
        for twofold in slashed::twofold_books() {
            let [by_numbers, in_slashes] = [twofold.by_numbers, twofold.in_slashes];
            let counts = (TWIN.check_book)(&by_numbers).expect(twofold.name);
            assert_eq!(
                (TWIN.check_book)(&in_slashes),
                Ok(counts),
                "{}",
                twofold.name
            );
            let entries = counts.entries as usize;
            assert_eq!(count_of_kind(&by_numbers, 3), entries);
            assert_eq!(count_of_kind(&in_slashes, 5), entries, "{}", twofold.name);
        }
    }

    #[test]
    fn lines_are_read_alike_in_slashes() {
        let all = all();
        let mut pairs = 0;
        for sample in &all {
            let plain = [", by numbers", ""].map(|by| sample.name.replace(", in slashes", by));
            let is_plain = |other: &&Sample| plain.contains(&other.name);
            let other = all.iter().find(is_plain).expect("the same by numbers");
            if other.name == sample.name {
                continue;
            }
            let read = |sample: &Sample| {
                let mut answer = [0; 512];
                let read = (TWIN.read_line)(&sample.book, &sample.line, &mut answer);
                (read, answer)
            };
            assert_eq!(read(sample), read(other), "{}", sample.name);
            assert_eq!(count_of_kind(&sample.book, 3), 0, "{}", sample.name);
            pairs += 1;
        }
        assert_eq!(pairs, 4);
    }

    #[test]
    fn typical_book_has_its_size() {
        let (book, words) = typical_book(&mut Random::new(1));
        assert_eq!(words.len(), 400);
        let counts = (TWIN.check_book)(&book).expect("the book is accepted");
        assert_eq!((counts.types, counts.entries), (20, 1000));
    }

    #[test]
    fn hard_lines_have_504_to_512_simple_types() {
        for sample in hard() {
            let mut at = 0;
            let mut simples = 0;
            while at < sample.book.len() {
                let length = sample.book[at] as usize;
                if sample.book[at + 2] == 3 {
                    simples += (length - 1 - sample.book[at + 4] as usize) / 2;
                }
                at += 4 + length;
            }
            assert!((504..=512).contains(&simples), "{}: {simples}", sample.name);
            assert_eq!(sample.line.split(|&byte| byte == b' ').count(), 24);
        }
    }

    /// The answer to the sample of a name.
    fn answer_to(name: &str) -> [u16; 512] {
        let sample = hard().into_iter().find(|sample| sample.name == name);
        let sample = sample.expect("a sample of that name");
        let mut answer = [0; 512];
        let result = (TWIN.read_line)(&sample.book, &sample.line, &mut answer);
        assert!(result.is_ok(), "{name}: {result:?}");
        answer
    }

    #[test]
    fn eight_targets_change_the_first_value_alone() {
        for kind in ["alternating 0 1", "entries of 12, 1 and 0"] {
            let one = answer_to(&format!("{kind}, reads"));
            let last = answer_to(&format!("{kind}, last of eight targets, reads"));
            let equal = answer_to(&format!("{kind}, eight equal targets, reads"));
            assert_eq!((one[0], last[0], equal[0]), (0, 7, 0));
            assert_eq!(last[1..], one[1..]);
            assert_eq!(equal, one);
        }
    }

    #[test]
    fn growth_doubles() {
        for growth in growth() {
            let sizes: Vec<usize> = growth.steps.iter().map(|(size, _)| *size).collect();
            assert_eq!(sizes, [64, 128, 256, 512], "{}", growth.name);
        }
    }
}
