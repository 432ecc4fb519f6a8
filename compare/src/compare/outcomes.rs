//! Counts outcomes by their refusals, and answers by their targets.
use crate::types::Refusal;
use std::time::Duration;

/// The greatest number of a refusal.
pub const LAST_REFUSAL: usize = 21;

/// How many targets a book has at most.
const MOST_TARGETS: usize = 8;

/// How many outcomes there were, how many of them are no refusal, and how many have each number.
#[derive(Default)]
pub struct Outcomes {
    pub all: u64,
    pub answered: u64,
    pub refused: [u64; LAST_REFUSAL + 1],
}

impl Outcomes {
    pub fn count<T>(&mut self, outcome: &Result<T, Refusal>) {
        self.all += 1;
        match outcome {
            Ok(_) => self.answered += 1,
            Err((number, _)) => self.refused[*number as usize] += 1,
        }
    }

    pub fn add(&mut self, other: &Outcomes) {
        self.all += other.all;
        self.answered += other.answered;
        for (mine, more) in self.refused.iter_mut().zip(other.refused) {
            *mine += more;
        }
    }

    /// The refusals that occurred, each with how often.
    pub fn refusals(&self) -> String {
        let refused: Vec<String> = (1..=LAST_REFUSAL)
            .filter(|number| self.refused[*number] > 0)
            .map(|number| format!("{number}: {}", self.refused[number]))
            .collect();
        format!("refusals {}", refused.join(", "))
    }
}

/// How many answers there were for each number of a target.
#[derive(Default)]
pub struct Targets {
    pub answered: [u64; MOST_TARGETS],
}

impl Targets {
    /// Counts an answer by its first value.
    pub fn count(&mut self, answer: &[u16]) {
        self.answered[answer[0] as usize] += 1;
    }

    pub fn add(&mut self, other: &Targets) {
        for (mine, more) in self.answered.iter_mut().zip(other.answered) {
            *mine += more;
        }
    }

    /// How often each number occurred.
    pub fn numbers(&self) -> String {
        let answered: Vec<String> = (0..MOST_TARGETS)
            .filter(|number| self.answered[*number] > 0)
            .map(|number| format!("{number}: {}", self.answered[number]))
            .collect();
        format!("targets {}", answered.join(", "))
    }
}

/// How long the independent reader took for all cases together, and for the slowest.
#[derive(Default)]
pub struct Times {
    all: Duration,
    most: Duration,
}

impl Times {
    pub fn count(&mut self, time: Duration) {
        self.all += time;
        self.most = self.most.max(time);
    }

    pub fn add(&mut self, other: &Times) {
        self.all += other.all;
        self.most = self.most.max(other.most);
    }

    /// The mean over so many cases, and the longest time.
    pub fn print(&self, cases: u64) {
        let mean = self.all / cases.max(1) as u32;
        println!("    time mean {mean:?}, most {:?}", self.most);
    }
}
