//! Runs cases through the independent reader and through others, compares what
//! they return and what they leave in the lent buffer, and counts the outcomes.
//! `listings` does so with what the program `reading` prints.

mod batches;
mod lines;
pub mod listings;
mod outcomes;
mod ways;

use crate::cases;
use crate::progress;
use crate::random::Random;
use crate::readers::{Reader, INDEPENDENT};
use batches::BatchTally;
use lines::LineTally;
use outcomes::{Outcomes, Targets};
use std::collections::BTreeMap;
use std::ops::RangeInclusive;
use std::panic::{catch_unwind, RefUnwindSafe};
use std::sync::atomic::{AtomicBool, AtomicU64, Ordering};
use std::time::{Duration, Instant};
use ways::WayTally;

const THREADS: u64 = 2;

/// A kind of cases.
#[derive(Clone, Copy)]
pub enum Stream {
    Lines,
    Batches,
    Ways,
}

use Stream::{Batches, Lines, Ways};

/// The streams that cases are of in turn: one of eight cases is a batch, and one a line with the words in its way.
pub const ALL: &[Stream] = &[Batches, Ways, Lines, Lines, Lines, Lines, Lines, Lines];

/// Lines with the words in their way alone.
pub const WAYS_ALONE: &[Stream] = &[Ways];

/// A case that readers are compared on.
trait Compared: RefUnwindSafe {
    /// What one reader makes of it.
    type Outcome: PartialEq;
    type Tally: Tally;

    fn kind(&self) -> &'static str;

    fn outcome(&self, reader: &Reader) -> Self::Outcome;

    /// Whether the parts of an outcome agree with each other.
    fn consistent(&self, _outcome: &Self::Outcome) -> bool {
        true
    }

    fn count(&self, tally: &mut Self::Tally, ours: &Self::Outcome, time: Duration);

    fn print(&self);

    fn print_outcome(name: &str, outcome: &Self::Outcome);
}

/// What is counted of the cases of one kind.
trait Tally: Default {
    fn add(&mut self, other: &Self);

    fn print(&self, kind: &str);
}

type ByKind<T> = BTreeMap<&'static str, T>;

#[derive(Default)]
struct Tallies {
    lines: ByKind<LineTally>,
    batches: ByKind<BatchTally>,
    ways: ByKind<WayTally>,
}

impl Tallies {
    fn add(&mut self, other: &Tallies) {
        add(&mut self.lines, &other.lines);
        add(&mut self.batches, &other.batches);
        add(&mut self.ways, &other.ways);
    }
}

/// What a buffer holds before it is lent.
fn prefilled(lent: usize) -> Vec<u16> {
    (0..lent).map(|place| 0xa5c3 ^ place as u16).collect()
}

/// A comparison of readers with the independent one.
struct Comparison<'a> {
    streams: &'a [Stream],
    seed: u64,
    readers: &'a [Reader],
    differ: AtomicBool,
}

/// Compares readers with the independent one on the given number of cases; false after the first difference.
pub fn run(streams: &[Stream], cases: u64, seed: u64, readers: &[Reader]) -> bool {
    let start = Instant::now();
    let comparison = Comparison {
        streams,
        seed,
        readers,
        differ: AtomicBool::new(false),
    };
    let parts = progress::shown(cases, |done| {
        in_threads(|first| comparison.part(first, cases, done))
    });
    let mut tallies = Tallies::default();
    for part in &parts {
        tallies.add(part);
    }
    print_tallies(&tallies, start.elapsed());
    told_alike(comparison.differ)
}

/// Whether there was no difference, which then is printed.
fn told_alike(differ: AtomicBool) -> bool {
    let alike = !differ.into_inner();
    if alike {
        println!("no difference");
    }
    alike
}

impl Comparison<'_> {
    /// The cases of one thread, up to the first difference in any.
    fn part(&self, first: u64, cases: u64, done: &AtomicU64) -> Tallies {
        let mut tallies = Tallies::default();
        for number in (first..cases).step_by(THREADS as usize) {
            if self.differ.load(Ordering::Relaxed) {
                break;
            }
            let random = &mut Random::for_case(self.seed, number);
            // Divided by the threads first, so that each thread has its share of each stream.
            let turn = number / THREADS % self.streams.len() as u64;
            match self.streams[turn as usize] {
                Batches => self.compare(number, &cases::batch(random), &mut tallies.batches),
                Ways => self.compare(number, &cases::way(random), &mut tallies.ways),
                Lines => self.compare(number, &cases::any(random), &mut tallies.lines),
            }
            done.fetch_add(1, Ordering::Relaxed);
        }
        tallies
    }

    /// Compares one case and counts it.
    fn compare<C: Compared>(&self, number: u64, case: &C, tallies: &mut ByKind<C::Tally>) {
        let begun = Instant::now();
        let expected = case.outcome(&INDEPENDENT);
        let tally = tallies.entry(case.kind()).or_default();
        case.count(tally, &expected, begun.elapsed());
        let consistent = case.consistent(&expected);
        for reader in self.readers {
            let other = catch_unwind(|| case.outcome(reader)).ok();
            let alike = consistent && other.as_ref() == Some(&expected);
            if !alike && !self.differ.swap(true, Ordering::Relaxed) {
                println!("DIFFERENCE in case {number} of seed {}", self.seed);
                print_difference(case, &expected, reader, other.as_ref());
            }
        }
    }
}

/// Runs each thread's part and gives what comes of them.
fn in_threads<T: Send>(part: impl Fn(u64) -> T + Sync) -> Vec<T> {
    std::thread::scope(|scope| {
        let part = &part;
        let threads: Vec<_> = (0..THREADS)
            .map(|first| scope.spawn(move || part(first)))
            .collect();
        let joined = threads.into_iter().map(|thread| thread.join());
        let ended = joined.map(|part| part.expect("a thread ends well"));
        ended.collect()
    })
}

fn add<T: Tally>(tallies: &mut ByKind<T>, others: &ByKind<T>) {
    for (kind, other) in others {
        tallies.entry(kind).or_default().add(other);
    }
}

fn print_tallies(tallies: &Tallies, time: Duration) {
    let cases =
        print_lines(&tallies.lines) + print_batches(&tallies.batches) + print_ways(&tallies.ways);
    print_rate(cases, time);
}

fn print_rate(cases: u64, time: Duration) {
    let seconds = time.as_secs_f64();
    let rate = cases as f64 / seconds;
    println!("{seconds:.2} seconds, {rate:.0} cases a second");
}

/// Prints what is counted of lines, if there are any, and returns how many there are.
fn print_lines(tallies: &ByKind<LineTally>) -> u64 {
    if tallies.is_empty() {
        return 0;
    }
    let lines = print_by_kind(tallies);
    print_missing("lines", &lines.all, &[1..=16, 19..=21]);
    print_missing_targets("lines", &lines.targets);
    lines.all.all
}

/// The same of batches.
fn print_batches(tallies: &ByKind<BatchTally>) -> u64 {
    if tallies.is_empty() {
        return 0;
    }
    let batches = print_by_kind(tallies);
    print_missing("batches", &batches.all, &[1..=10, 17..=21]);
    print_missing("lines of batches", &batches.lines, &[11..=15]);
    print_missing_targets("lines of batches", &batches.targets);
    batches.all.all
}

/// The same of lines with the words in their way.
fn print_ways(tallies: &ByKind<WayTally>) -> u64 {
    if tallies.is_empty() {
        return 0;
    }
    let ways = print_by_kind(tallies);
    print_missing("words in the way", &ways.all, &[1..=16, 19..=21]);
    print_missing_bits(&ways);
    ways.all.all
}

/// Prints the tally of each kind and that of all of them, which is returned.
fn print_by_kind<T: Tally>(tallies: &ByKind<T>) -> T {
    let mut all = T::default();
    for (kind, tally) in tallies {
        tally.print(kind);
        all.add(tally);
    }
    all.print("all");
    all
}

/// Prints which refusals of those that could have occurred did not.
fn print_missing(what: &str, outcomes: &Outcomes, numbers: &[RangeInclusive<usize>]) {
    for number in numbers.iter().cloned().flatten() {
        if outcomes.refused[number] == 0 {
            println!("{what}: refusal {number} did not occur");
        }
    }
}

/// Prints which bits of the words in the way were never set.
fn print_missing_bits(ways: &WayTally) {
    for (k, times) in ways.bits.iter().enumerate() {
        if *times == 0 {
            println!("words in the way: bit {k} was never set");
        }
    }
}

/// Prints for which numbers of a target no line was read.
fn print_missing_targets(what: &str, targets: &Targets) {
    for (number, answered) in targets.answered.iter().enumerate() {
        if *answered == 0 {
            println!("{what}: none was read for target {number}");
        }
    }
}

fn print_difference<C: Compared>(
    case: &C,
    expected: &C::Outcome,
    reader: &Reader,
    other: Option<&C::Outcome>,
) {
    case.print();
    C::print_outcome(INDEPENDENT.name, expected);
    match other {
        Some(other) => C::print_outcome(reader.name, other),
        None => println!("{}: did not return", reader.name),
    }
}

fn hex(bytes: &[u8]) -> String {
    bytes.iter().map(|byte| format!("{byte:02x}")).collect()
}

#[cfg(test)]
mod tests {
    use super::*;
    use crate::books::{first_book, kind_of, record_ranges, target_ranges, word_ranges};
    use crate::cases::{Batch, Case, Way};
    use crate::readers::{CheckBook, ReadBatch, WordsInTheWay, TWIN};
    use crate::types::{Counts, InTheWay, Refusal};

    /// The independent reader, but with one bit set in every byte from 64 to 94 of words on both sides, so that `[` is `{`.
    fn one_bit_masked(book: &[u8], line: &[u8], answer: &mut [u16]) -> Result<u64, Refusal> {
        let mask = |byte: &mut u8| {
            if (64..=94).contains(byte) {
                *byte |= 32;
            }
        };
        let (mut book, mut line) = (book.to_vec(), line.to_vec());
        for word in word_ranges(&book) {
            book[word].iter_mut().for_each(mask);
        }
        line.iter_mut().for_each(mask);
        (INDEPENDENT.read_line)(&book, &line, answer)
    }

    /// Whether a reader comes through without a difference.
    fn alike(reader: Reader) -> bool {
        run(ALL, 800, 3, &[INDEPENDENT, reader])
    }

    #[test]
    fn differences_are_found() {
        let one_too_many = |book: &[u8], line: &[u8], answer: &mut [u16]| {
            let written = (INDEPENDENT.read_line)(book, line, answer)?;
            if let Some(behind) = answer.get_mut(written as usize) {
                *behind = 0;
            }
            Ok(written)
        };
        assert!(alike(INDEPENDENT));
        assert!(!alike(Reader {
            read_line: one_too_many,
            ..INDEPENDENT
        }));
        assert!(!alike(Reader {
            read_line: one_bit_masked,
            ..INDEPENDENT
        }));
        assert!(!alike(Reader {
            check_book: |_| Err((10, 0)),
            ..INDEPENDENT
        }));
        assert!(!alike(Reader {
            check_book: |_| panic!("on purpose"),
            ..INDEPENDENT
        }));
    }

    /// Reads as the independent reader does, but what it writes is changed, or the line refused instead.
    fn changed(
        book: &[u8],
        line: &[u8],
        answer: &mut [u16],
        change: impl Fn(&mut [u16]) -> Result<(), Refusal>,
    ) -> Result<u64, Refusal> {
        let mut own = answer.to_vec();
        let written = (INDEPENDENT.read_line)(book, line, &mut own)?;
        change(&mut own)?;
        answer.copy_from_slice(&own);
        Ok(written)
    }

    #[test]
    fn differences_in_targets_are_found() {
        // All answers are said to be for the first target.
        assert!(!alike(Reader {
            read_line: |book, line, answer| changed(book, line, answer, |own| {
                own[0] = 0;
                Ok(())
            }),
            ..INDEPENDENT
        }));
        // Lines are read for the first target alone.
        assert!(!alike(Reader {
            read_line: |book, line, answer| changed(book, line, answer, |own| match own[0] {
                0 => Ok(()),
                _ => Err((15, 0)),
            }),
            ..INDEPENDENT
        }));
        // A second target is refused, or no number of them is.
        assert!(!alike(Reader {
            check_book: |book| match target_ranges(book).get(1) {
                Some(second) => Err((8, second.start as u64)),
                None => (INDEPENDENT.check_book)(book),
            },
            ..INDEPENDENT
        }));
        assert!(!alike(Reader {
            check_book: |book| match (INDEPENDENT.check_book)(book) {
                Err((8, _)) => Ok(Counts {
                    types: 1,
                    entries: 1,
                    pairs: 1
                }),
                other => other,
            },
            ..INDEPENDENT
        }));
        // The later of two targets with a reading is taken.
        assert!(!alike(Reader {
            read_line: last_target_first,
            ..INDEPENDENT
        }));
    }

    /// The independent reader with the targets of an accepted book in turned order.
    fn last_target_first(book: &[u8], line: &[u8], answer: &mut [u16]) -> Result<u64, Refusal> {
        (INDEPENDENT.check_book)(book)?;
        let targets = target_ranges(book);
        let mut turned = book.to_vec();
        for (range, other) in targets.iter().zip(targets.iter().rev()) {
            turned[range.clone()].copy_from_slice(&book[other.clone()]);
        }
        changed(&turned, line, answer, |own| {
            own[0] = targets.len() as u16 - 1 - own[0];
            Ok(())
        })
    }

    /// The book with its texts changed.
    fn with_texts(book: &[u8], change: impl Fn(&mut u8)) -> Vec<u8> {
        let mut changed = book.to_vec();
        for range in record_ranges(book) {
            if kind_of(&book[range.clone()]) == 5 && range.len() > 4 {
                let text = range.start + 5 + book[range.start + 4] as usize;
                changed[text.min(range.end)..range.end]
                    .iter_mut()
                    .for_each(&change);
            }
        }
        changed
    }

    #[test]
    fn differences_in_slashes_are_found() {
        // Kind 5 is not listed.
        assert!(!alike(Reader {
            check_book: |book| {
                let mut records = record_ranges(book).into_iter();
                match records.find(|range| kind_of(&book[range.clone()]) == 5) {
                    Some(first) => Err((3, first.start as u64)),
                    None => (INDEPENDENT.check_book)(book),
                }
            },
            ..INDEPENDENT
        }));
        // Either slash is taken for the other.
        assert!(!alike(Reader {
            read_line: |book, line, answer| {
                let turned = with_texts(book, |byte| match *byte {
                    b'/' => *byte = b'\\',
                    b'\\' => *byte = b'/',
                    _ => {}
                });
                (INDEPENDENT.read_line)(&turned, line, answer)
            },
            ..INDEPENDENT
        }));
        // Capitals in texts count as small letters.
        assert!(!run(
            ALL,
            20_000,
            3,
            &[Reader {
                check_book: |book| {
                    let small = with_texts(book, |byte| byte.make_ascii_lowercase());
                    (INDEPENDENT.check_book)(&small)
                },
                ..INDEPENDENT
            }]
        ));
        // One of the new refusals is given for another.
        let swapped: [CheckBook; 3] = [
            |book| swap(book, 19, 20),
            |book| swap(book, 20, 5),
            |book| swap(book, 21, 9),
        ];
        for check_book in swapped {
            assert!(!run(
                ALL,
                4_000,
                3,
                &[Reader {
                    check_book,
                    ..INDEPENDENT
                }]
            ));
        }
    }

    /// The independent reader's book check, with one refusal in the place of another.
    fn swap(book: &[u8], one: u32, other: u32) -> Result<Counts, Refusal> {
        (INDEPENDENT.check_book)(book).map_err(|(number, value)| match number == one {
            true => (other, value),
            false => (number, value),
        })
    }

    /// Where a text must change nothing, the line is read against the plain book too.
    #[test]
    fn plain_books_are_compared() {
        let case = |text: &[u8]| {
            let (mut book, mut plain) = (first_book(), first_book());
            book.slashed_entry(b"hurry", text);
            plain.entry(b"hurry", &[(0, 0), (0, -1)]);
            Case {
                kind: "",
                book: book.bytes(),
                line: b"hurry go".to_vec(),
                lent: 20,
                plain: Some(plain.bytes()),
            }
        };
        let consistent = |case: Case| case.consistent(&case.outcome(&INDEPENDENT));
        assert!(consistent(case(b"(o/o)")));
        assert!(!consistent(case(b"o\\o")));
        assert!(!consistent(case(b"o/o/o")));
    }

    #[test]
    fn twin_reads_as_the_independent_reader_does() {
        for seed in [1, 2] {
            assert!(run(ALL, 20_000, seed, &[TWIN]));
            assert!(run(WAYS_ALONE, 4_000, seed, &[TWIN]));
        }
    }

    #[test]
    fn differences_in_batches_are_found() {
        let wrong: [ReadBatch; 5] = [
            // The book before the lines.
            |book, lines, answers| {
                (INDEPENDENT.check_book)(book)?;
                (INDEPENDENT.read_batch)(book, lines, answers)
            },
            // What a refusal must leave is written to.
            |book, lines, answers| {
                let read = (INDEPENDENT.read_batch)(book, lines, answers);
                if let (Err((17 | 18, _)), Some(first)) = (read, answers.first_mut()) {
                    *first = 0;
                }
                read
            },
            // The last value of the buffer is cleared.
            |book, lines, answers| {
                let lines = (INDEPENDENT.read_batch)(book, lines, answers)?;
                if let Some(last) = answers.last_mut() {
                    *last = 0;
                }
                Ok(lines)
            },
            // The last line need not be closed.
            |book, lines, answers| match lines.last() {
                Some(last) if *last != 10 => {
                    let closed = [lines, &[10]].concat();
                    (INDEPENDENT.read_batch)(book, &closed, answers)
                }
                _ => (INDEPENDENT.read_batch)(book, lines, answers),
            },
            // Empty lines are no lines.
            |book, lines, answers| {
                let full = |line: &&[u8]| **line != [10];
                let lines = lines.split_inclusive(|byte| *byte == 10).filter(full);
                let lines: Vec<u8> = lines.flatten().copied().collect();
                (INDEPENDENT.read_batch)(book, &lines, answers)
            },
        ];
        for read_batch in wrong {
            assert!(!alike(Reader {
                read_batch,
                ..INDEPENDENT
            }));
        }
    }

    /// Tells the words in the way as the independent reader does, but with another number beside a refusal.
    fn renumbered(
        book: &[u8],
        line: &[u8],
        answer: &mut [u16],
        number: impl Fn(Refusal, Option<u32>) -> Option<u32>,
    ) -> InTheWay {
        let told = (INDEPENDENT.words_in_the_way)(book, line, answer);
        told.map_err(|(refusal, words)| (refusal, number(refusal, words)))
    }

    #[test]
    fn differences_in_words_in_the_way_are_found() {
        let wrong: [WordsInTheWay; 7] = [
            // Bit k tells of word k.
            |book, line, answer| {
                renumbered(book, line, answer, |_, words| words.map(|words| words << 1))
            },
            // The last of 24 words is never in the way.
            |book, line, answer| {
                let but_last = |_, words: Option<u32>| words.map(|words| words & 0x7fffff);
                renumbered(book, line, answer, but_last)
            },
            // 15 comes without a number, or with one where it is 0.
            |book, line, answer| renumbered(book, line, answer, |_, _| None),
            |book, line, answer| {
                renumbered(book, line, answer, |_, words| {
                    words.filter(|words| *words != 0)
                })
            },
            // 16 comes with a number too.
            |book, line, answer| {
                renumbered(book, line, answer, |refusal, words| match refusal.0 {
                    16 => Some(0),
                    _ => words,
                })
            },
            // What 15 must leave is written to.
            |book, line, answer| {
                let told = (INDEPENDENT.words_in_the_way)(book, line, answer);
                if let (Err(((15, _), _)), Some(first)) = (told, answer.first_mut()) {
                    *first = 0;
                }
                told
            },
            // Only the first target is looked at for the words that are left.
            |book, line, answer| {
                let told = (INDEPENDENT.words_in_the_way)(book, line, answer);
                let mut first = book.to_vec();
                for range in target_ranges(book).iter().skip(1).rev() {
                    first.drain(range.clone());
                }
                match told {
                    Err(((15, _), _)) => (INDEPENDENT.words_in_the_way)(&first, line, answer),
                    _ => told,
                }
            },
        ];
        for (number, words_in_the_way) in wrong.into_iter().enumerate() {
            let reader = Reader {
                words_in_the_way,
                ..INDEPENDENT
            };
            assert!(!run(WAYS_ALONE, 4_000, 3, &[reader]), "{number}");
        }
    }

    /// Numbers that are right do not hide lines without a word that are wrong when they are read.
    #[test]
    fn lines_without_a_word_are_compared() {
        let way = Way(Case {
            kind: "",
            book: first_book().bytes(),
            line: b"go go".to_vec(),
            lent: 20,
            plain: None,
        });
        assert!(way.consistent(&way.outcome(&INDEPENDENT)));
        let other = Reader {
            read_line: |_, _, _| Err((15, 0)),
            ..INDEPENDENT
        };
        assert!(!way.consistent(&way.outcome(&other)));
    }

    /// Batches that are right do not hide lines that are wrong when they are read alone.
    #[test]
    fn lines_alone_are_compared() {
        let batch = Batch {
            kind: "",
            book: first_book().bytes(),
            lines: b"go\nadmit site\n".to_vec(),
            lent: 20,
        };
        assert!(batch.consistent(&batch.outcome(&INDEPENDENT)));
        let other = Reader {
            read_line: |_, _, _| Err((15, 0)),
            ..INDEPENDENT
        };
        assert!(!batch.consistent(&batch.outcome(&other)));
    }
}
