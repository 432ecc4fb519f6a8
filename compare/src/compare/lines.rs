//! Lines as they are compared: what a reader says of the book alone, what it returns for the line, and what it leaves in the buffer. Where
//! types of the book's entries were written as texts, all this must be the same with the book as it was before.
use super::outcomes::{Outcomes, Targets, Times};
use super::{hex, prefilled, Compared, Tally};
use crate::books::{kind_of, record_ranges, word_ranges};
use crate::cases::Case;
use crate::readers::Reader;
use crate::types::{Counts, Refusal};
use std::time::Duration;

/// What one reader makes of a book and a line.
#[derive(PartialEq, Eq)]
pub struct Made {
    checked: Result<Counts, Refusal>,
    read: Result<u64, Refusal>,
    answer: Vec<u16>,
}

/// What one reader makes of a case, and of its line with the plain book.
#[derive(PartialEq, Eq)]
pub struct Outcome {
    made: Made,
    plain: Option<Made>,
}

/// Outcomes of lines, the targets that they are read for, those with capitals on both sides, those of books with slashes, how many
/// books are accepted, and how many are compared with a plain one.
#[derive(Default)]
pub struct LineTally {
    pub all: Outcomes,
    pub targets: Targets,
    capitals: Outcomes,
    slashes: Outcomes,
    accepted: u64,
    rewritten: u64,
    times: Times,
}

impl Compared for Case {
    type Outcome = Outcome;
    type Tally = LineTally;

    fn kind(&self) -> &'static str {
        self.kind
    }

    fn outcome(&self, reader: &Reader) -> Outcome {
        let made = |book: &Vec<u8>| {
            let mut answer = prefilled(self.lent);
            Made {
                checked: (reader.check_book)(book),
                read: (reader.read_line)(book, &self.line, &mut answer),
                answer,
            }
        };
        Outcome {
            made: made(&self.book),
            plain: self.plain.as_ref().map(made),
        }
    }

    fn consistent(&self, outcome: &Outcome) -> bool {
        let plain = outcome.plain.as_ref();
        plain.is_none_or(|plain| *plain == outcome.made)
    }

    fn count(&self, tally: &mut LineTally, ours: &Outcome, time: Duration) {
        tally.rewritten += u64::from(ours.plain.is_some());
        let ours = &ours.made;
        tally.all.count(&ours.read);
        if ours.read.is_ok() {
            tally.targets.count(&ours.answer);
        }
        tally.accepted += u64::from(ours.checked.is_ok());
        if capitals_on_both_sides(self, ours) {
            tally.capitals.count(&ours.read);
        }
        if has_slashes(&self.book) {
            tally.slashes.count(&ours.read);
        }
        tally.times.count(time);
    }

    fn print(&self) {
        println!("kind: {}", self.kind);
        println!("book in hex: {}", hex(&self.book));
        println!("line in hex: {}", hex(&self.line));
        println!("line: {}", self.line.escape_ascii());
        println!("values lent: {}", self.lent);
        if let Some(plain) = &self.plain {
            println!("plain book in hex: {}", hex(plain));
        }
    }

    fn print_outcome(name: &str, outcome: &Outcome) {
        print_made(name, &outcome.made);
        if let Some(plain) = &outcome.plain {
            print_made(&format!("{name}, plain book"), plain);
        }
    }
}

fn print_made(name: &str, made: &Made) {
    println!("{name}, book check: {:?}", made.checked);
    println!("{name}, line: {:?}", made.read);
    println!("{name}, answer: {:?}", made.answer);
}

/// Whether a book has an entry in slash notation.
fn has_slashes(book: &[u8]) -> bool {
    let mut records = record_ranges(book).into_iter();
    records.any(|range| kind_of(&book[range]) == 5)
}

/// Whether the book is accepted, and capitals stand both in words of its entries and in the line.
fn capitals_on_both_sides(case: &Case, ours: &Made) -> bool {
    let capitals = |bytes: &[u8]| bytes.iter().any(u8::is_ascii_uppercase);
    let mut words = word_ranges(&case.book).into_iter();
    ours.checked.is_ok() && capitals(&case.line) && words.any(|word| capitals(&case.book[word]))
}

impl Tally for LineTally {
    fn add(&mut self, other: &LineTally) {
        self.all.add(&other.all);
        self.targets.add(&other.targets);
        self.capitals.add(&other.capitals);
        self.slashes.add(&other.slashes);
        self.accepted += other.accepted;
        self.rewritten += other.rewritten;
        self.times.add(&other.times);
    }

    fn print(&self, kind: &str) {
        let (all, capitals, slashes) = (&self.all, &self.capitals, &self.slashes);
        println!(
            "lines, {kind}: {} cases, {} books accepted, {} lines read",
            all.all, self.accepted, all.answered
        );
        println!("    {}, {}", self.targets.numbers(), all.refusals());
        println!(
            "    with capitals on both sides {} cases, {} lines read, {}",
            capitals.all,
            capitals.answered,
            capitals.refusals()
        );
        println!(
            "    with slashes {} cases, {} of them beside a plain book, {} lines read, {}",
            slashes.all,
            self.rewritten,
            slashes.answered,
            slashes.refusals()
        );
        self.times.print(all.all);
    }
}
