//! Candidates to start from: one word in all places but the last, with an entry of twelve that vanishes, nine of one simple type
//! before or behind it, and an empty one. Both words have one key, and there is one target.
use super::candidate::{Candidate, Entry};
use crate::twin::figures::limits::{MAX_ENTRY_SIMPLES, MAX_WORDS};

/// So many simple types 0 1 0 1.
fn alternating(length: usize) -> Entry {
    (0..length).map(|k| (k % 2) as i8).collect()
}

/// The start whose entries of one simple type have this exponent.
fn start(exponent: i8, before: bool) -> Candidate {
    let mut word = vec![vec![exponent]; 9];
    word.insert(if before { 9 } else { 0 }, alternating(MAX_ENTRY_SIMPLES));
    word.push(Vec::new());
    let mut last = vec![vec![exponent]; 18];
    last.push(alternating(MAX_ENTRY_SIMPLES - 1));
    let mut line = vec![0; MAX_WORDS];
    line[MAX_WORDS - 1] = 1;
    Candidate {
        words: vec![word, last],
        line,
        strangers: Some(0),
        targets: 1,
    }
}

/// All candidates to start from.
pub fn starts() -> Vec<Candidate> {
    let exponents = [-1, 1, 2, 3].into_iter();
    exponents
        .flat_map(|exponent| [start(exponent, true), start(exponent, false)])
        .collect()
}
