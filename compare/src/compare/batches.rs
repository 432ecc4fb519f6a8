//! Batches as they are compared: what a reader returns for the batch and leaves in the buffer, and what it makes of each line alone.
use super::outcomes::{Outcomes, Targets, Times};
use super::{hex, prefilled, Compared, Tally};
use crate::cases::{Batch, AMPLE};
use crate::readers::Reader;
use crate::types::Refusal;
use std::time::Duration;

/// What one reader makes of a batch. Its lines are read alone too where batch and book are in order.
#[derive(PartialEq, Eq)]
pub struct Outcome {
    read: Result<u64, Refusal>,
    answers: Vec<u16>,
    alone: Vec<Result<Vec<u16>, Refusal>>,
}

/// Outcomes of batches, and of the lines of those that are answered, with the targets that these are read for.
#[derive(Default)]
pub struct BatchTally {
    pub all: Outcomes,
    pub lines: Outcomes,
    pub targets: Targets,
    times: Times,
}

impl Compared for Batch {
    type Outcome = Outcome;
    type Tally = BatchTally;

    fn kind(&self) -> &'static str {
        self.kind
    }

    fn outcome(&self, reader: &Reader) -> Outcome {
        let mut answers = prefilled(self.lent);
        let read = (reader.read_batch)(&self.book, &self.lines, &mut answers);
        let alone = match read {
            Ok(_) | Err((18, _)) => self.lines_read_by(reader),
            Err(_) => vec![],
        };
        Outcome {
            read,
            answers,
            alone,
        }
    }

    /// Whether return and buffer are those that the lines make when they are read alone.
    fn consistent(&self, outcome: &Outcome) -> bool {
        let values: Vec<u16> = outcome.alone.iter().flat_map(part).collect();
        let mut answers = prefilled(self.lent);
        let read = match outcome.read {
            Ok(_) | Err((18, _)) => match answers.get_mut(..values.len()) {
                Some(front) => {
                    front.copy_from_slice(&values);
                    Ok(outcome.alone.len() as u64)
                }
                None => Err((18, values.len() as u64)),
            },
            refused => refused,
        };
        read == outcome.read && answers == outcome.answers
    }

    fn count(&self, tally: &mut BatchTally, ours: &Outcome, time: Duration) {
        tally.all.count(&ours.read);
        if ours.read.is_ok() {
            for line in &ours.alone {
                tally.lines.count(line);
                if let Ok(answer) = line {
                    tally.targets.count(answer);
                }
            }
        }
        tally.times.count(time);
    }

    fn print(&self) {
        println!("kind: batch, {}", self.kind);
        println!("book in hex: {}", hex(&self.book));
        println!("lines in hex: {}", hex(&self.lines));
        println!("lines: {}", self.lines.escape_ascii());
        println!("values lent: {}", self.lent);
    }

    fn print_outcome(name: &str, outcome: &Outcome) {
        println!("{name}, batch: {:?}", outcome.read);
        println!("{name}, answers: {:?}", outcome.answers);
        for (number, line) in outcome.alone.iter().enumerate() {
            println!("{name}, line {number} alone: {line:?}");
        }
    }
}

impl Batch {
    /// What a reader makes of each line alone, with ample buffer.
    fn lines_read_by(&self, reader: &Reader) -> Vec<Result<Vec<u16>, Refusal>> {
        let lines = self.lines.split_inclusive(|byte| *byte == 10);
        let read = |line: &[u8]| {
            let mut answer = prefilled(AMPLE);
            let values = (reader.read_line)(&self.book, &line[..line.len() - 1], &mut answer)?;
            Ok(answer[..values as usize].to_vec())
        };
        lines.map(read).collect()
    }
}

/// The part of a line in the answers: how many values follow, the refusal's number or 0, its value or the answer.
fn part(line: &Result<Vec<u16>, Refusal>) -> Vec<u16> {
    match line {
        Ok(answer) => [&[1 + answer.len() as u16, 0], &answer[..]].concat(),
        Err((number, value)) => vec![2, *number as u16, *value as u16],
    }
}

impl Tally for BatchTally {
    fn add(&mut self, other: &BatchTally) {
        self.all.add(&other.all);
        self.lines.add(&other.lines);
        self.targets.add(&other.targets);
        self.times.add(&other.times);
    }

    fn print(&self, kind: &str) {
        let (all, lines) = (&self.all, &self.lines);
        println!(
            "batches, {kind}: {} cases, {} answered, {}",
            all.all,
            all.answered,
            all.refusals()
        );
        println!(
            "    in those answered {} lines, {} read, {}, {}",
            lines.all,
            lines.answered,
            self.targets.numbers(),
            lines.refusals()
        );
        self.times.print(all.all);
    }
}
