//! Words in the way as they are compared: what a reader returns for the line and leaves in the buffer, what it makes of the line as an
//! ordinary one, and of the lines without one of its words where it has no reading.
use super::outcomes::{Outcomes, Times};
use super::{prefilled, Compared, Tally};
use crate::cases::{words_of, Way};
use crate::readers::Reader;
use crate::types::{InTheWay, Refusal};
use std::time::Duration;

/// How many words a line has at most.
const MOST_WORDS: usize = 24;

/// What a line gets: what is returned, and what the buffer holds then.
type Got<T> = (T, Vec<u16>);

/// What one reader makes of a line. `without` has what each line without a word gets when nothing is lent: 15, or 16 where it has a
/// reading.
#[derive(PartialEq, Eq)]
pub struct Outcome {
    told: Got<InTheWay>,
    ordinary: Got<Result<u64, Refusal>>,
    without: Vec<Result<u64, Refusal>>,
}

/// Outcomes of lines, and of those without a reading how many have no word in the way, one and several, and for each bit how often it is
/// set.
#[derive(Default)]
pub struct WayTally {
    pub all: Outcomes,
    none: u64,
    one: u64,
    several: u64,
    pub bits: [u64; MOST_WORDS],
    times: Times,
}

impl Compared for Way {
    type Outcome = Outcome;
    type Tally = WayTally;

    fn kind(&self) -> &'static str {
        self.0.kind
    }

    fn outcome(&self, reader: &Reader) -> Outcome {
        let (book, line) = (&self.0.book, &self.0.line);
        let (mut answer, mut other) = (prefilled(self.0.lent), prefilled(self.0.lent));
        let told = (reader.words_in_the_way)(book, line, &mut answer);
        let ordinary = (reader.read_line)(book, line, &mut other);
        let without = match ordinary {
            Err((15, _)) => lines_without_a_word(line),
            _ => vec![],
        };
        let read = |line: &Vec<u8>| (reader.read_line)(book, line, &mut []);
        Outcome {
            told: (told, answer),
            ordinary: (ordinary, other),
            without: without.iter().map(read).collect(),
        }
    }

    /// Whether the line gets what it gets as an ordinary one, and with 15 the number that the lines without a word make.
    fn consistent(&self, outcome: &Outcome) -> bool {
        let bit = |(k, read): (usize, &Result<u64, Refusal>)| u32::from(*read != Err((15, 0))) << k;
        let number = outcome.without.iter().enumerate().map(bit).sum();
        let (ordinary, buffer) = &outcome.ordinary;
        let told = ordinary.map_err(|refusal| (refusal, (refusal.0 == 15).then_some(number)));
        outcome.told == (told, buffer.clone())
    }

    fn count(&self, tally: &mut WayTally, ours: &Outcome, time: Duration) {
        tally.all.count(&ours.ordinary.0);
        if let Err((_, Some(number))) = ours.told.0 {
            match number.count_ones() {
                0 => tally.none += 1,
                1 => tally.one += 1,
                _ => tally.several += 1,
            }
            for (k, times) in tally.bits.iter_mut().enumerate() {
                *times += u64::from(number >> k & 1);
            }
        }
        tally.times.count(time);
    }

    fn print(&self) {
        self.0.print();
    }

    fn print_outcome(name: &str, outcome: &Outcome) {
        println!("{name}, words in the way: {:?}", outcome.told.0);
        println!("{name}, answer: {:?}", outcome.told.1);
        println!("{name}, ordinary line: {:?}", outcome.ordinary.0);
        println!("{name}, its answer: {:?}", outcome.ordinary.1);
        for (k, read) in outcome.without.iter().enumerate() {
            println!("{name}, without word {}: {read:?}", k + 1);
        }
    }
}

/// The line without each of its words in turn, with one space between two others.
fn lines_without_a_word(line: &[u8]) -> Vec<Vec<u8>> {
    let words = words_of(line);
    let without = |k: usize| [&words[..k], &words[k + 1..]].concat().join(&b' ');
    (0..words.len()).map(without).collect()
}

impl Tally for WayTally {
    fn add(&mut self, other: &WayTally) {
        self.all.add(&other.all);
        self.none += other.none;
        self.one += other.one;
        self.several += other.several;
        for (mine, more) in self.bits.iter_mut().zip(other.bits) {
            *mine += more;
        }
        self.times.add(&other.times);
    }

    fn print(&self, kind: &str) {
        let all = &self.all;
        println!(
            "words in the way, {kind}: {} cases, {} lines read, {}",
            all.all,
            all.answered,
            all.refusals()
        );
        println!(
            "    without a reading: none in the way {}, one {}, several {}",
            self.none, self.one, self.several
        );
        self.times.print(all.all);
    }
}
