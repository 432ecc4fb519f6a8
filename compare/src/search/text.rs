//! Candidates as text: for each word a row `word 0 1 | -1 | -` with its entries parted by bars and a dash for an empty one, where all
//! words have one key a row `strangers 8`, a row `targets 2`, without which there is one target, and a row `line 0 0 1` that ends the
//! candidate.
use super::candidate::{Candidate, Entry};
use std::fmt::Display;

/// A candidate of which no row is read.
const UNREAD: Candidate = Candidate {
    words: Vec::new(),
    line: Vec::new(),
    strangers: None,
    targets: 1,
};

/// The text of a candidate.
pub fn write(candidate: &Candidate) -> String {
    let mut text = String::new();
    for entries in &candidate.words {
        let entries: Vec<String> = entries.iter().map(write_entry).collect();
        text += &format!("word {}\n", entries.join(" | "));
    }
    if let Some(strangers) = candidate.strangers {
        text += &format!("strangers {strangers}\n");
    }
    text += &format!("targets {}\n", candidate.targets);
    text + &format!("line {}\n", spaced(&candidate.line))
}

fn write_entry(entry: &Entry) -> String {
    match entry.is_empty() {
        true => "-".to_string(),
        false => spaced(entry),
    }
}

fn spaced(numbers: &[impl Display]) -> String {
    let numbers: Vec<String> = numbers.iter().map(|number| number.to_string()).collect();
    numbers.join(" ")
}

/// All candidates of a text; none where a row cannot be read.
pub fn read(text: &str) -> Option<Vec<Candidate>> {
    let mut all = Vec::new();
    let mut candidate = UNREAD;
    for row in text.lines() {
        match row.split_once(' ')? {
            ("word", entries) => {
                let entries: Option<Vec<Entry>> = entries.split('|').map(read_entry).collect();
                candidate.words.push(entries?);
            }
            ("strangers", count) => candidate.strangers = Some(count.parse().ok()?),
            ("targets", count) => candidate.targets = count.parse().ok()?,
            ("line", words) => {
                let words: Option<Vec<usize>> =
                    words.split(' ').map(|word| word.parse().ok()).collect();
                candidate.line = words?;
                all.push(std::mem::replace(&mut candidate, UNREAD));
            }
            _ => return None,
        }
    }
    Some(all)
}

fn read_entry(text: &str) -> Option<Entry> {
    match text.trim() {
        "-" => Some(Vec::new()),
        exponents => exponents.split(' ').map(|one| one.parse().ok()).collect(),
    }
}
