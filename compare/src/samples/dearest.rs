//! The dearest line that the search has found, which has eight targets, and the same with one.
use super::Sample;
use crate::search::{self, Candidate};

/// What the search has found, from the text that it printed.
fn found() -> Candidate {
    let candidates = search::read_text(include_str!("dearest.txt"));
    let first = candidates
        .expect("the text of candidates")
        .into_iter()
        .next();
    first.expect("a candidate")
}

fn sample(name: &str, candidate: &Candidate) -> Sample {
    Sample {
        name: name.to_string(),
        book: candidate.book(),
        line: candidate.line_bytes(),
    }
}

/// The line and its book.
pub fn dearest() -> Sample {
    sample("dearest of a search, reads", &found())
}

/// The line with one target.
pub fn dearest_of_one_target() -> Sample {
    let candidate = Candidate {
        targets: 1,
        ..found()
    };
    sample("dearest of a search, one target, reads", &candidate)
}
