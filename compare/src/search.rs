//! A search for the dearest line: it climbs from several starts by small changes, on the cost by a model whose weights are fitted to
//! instruction counts. `search.sh` counts what it finds, as a line and as a batch of copies of it. A line takes less in a batch than alone,
//! where its book is opened for it: the search climbs on lines.
//!
//! - `compare search [STEPS] [SEED]`: prints the dearest candidate that is found, as text.
//! - `compare search read line|batch FILE`: reads each candidate of a file once with the library, its line or a batch of 32 copies of it,
//!   for a tool that counts instructions.
//! - `compare search spread COUNT SEED`: prints candidates for a fit.
//! - `compare search fit FILE COUNTS`: prints the weights that fit the candidates of a file and their instruction counts.
mod candidate;
mod changes;
mod fit;
mod model;
mod starts;
mod steps;
mod text;
mod weights;

use crate::random::Random;
use crate::readers::LIBRARY;
use crate::twin::figures::limits::{MAX_BATCH_VALUES, MAX_VALUES};
use crate::types::Refusal;
pub use candidate::Candidate;
pub use text::read as read_text;

const USAGE: &str =
    "compare search [STEPS] [SEED] | read line|batch FILE | spread COUNT SEED | fit FILE COUNTS";

/// What part of the cost a change may lose at the beginning of a climb; at its end it may lose nothing.
const LOSS: f64 = 0.001;

/// Does what the arguments behind `search` ask for; false where they cannot be read.
pub fn command(arguments: &[&str]) -> bool {
    let done = match *arguments {
        [] => search("15000", "1"),
        ["read", "line", file] => read_each(file, read_line),
        ["read", "batch", file] => read_each(file, read_batch),
        ["spread", count, seed] => spread(count, seed),
        ["fit", file, counts] => print_fit(file, counts),
        [steps] => search(steps, "1"),
        [steps, seed] => search(steps, seed),
        _ => None,
    };
    if done.is_none() {
        eprintln!("{USAGE}");
    }
    done.is_some()
}

/// A candidate and its cost by the model.
#[derive(Clone)]
struct Costed {
    candidate: Candidate,
    cost: f64,
}

impl Costed {
    fn new(candidate: Candidate) -> Costed {
        let cost = model::cost(&candidate);
        Costed { candidate, cost }
    }
}

/// Climbs by so many steps and gives the dearest candidate on the way.
fn climb(from: &Costed, steps: usize, random: &mut Random) -> Costed {
    let mut here = from.clone();
    let mut dearest = from.clone();
    for step in 0..steps {
        let next = changes::changed(&here.candidate, random);
        if !next.is_within_limits() {
            continue;
        }
        let next = Costed::new(next);
        let loss = LOSS * here.cost * (steps - step) as f64 / steps as f64;
        if next.cost + loss >= here.cost {
            here = next;
        }
        if here.cost > dearest.cost {
            dearest = here.clone();
        }
    }
    dearest
}

/// Climbs from all starts, then from the dearer half of what is found by twice as many steps, until one is left, which is printed.
fn search(steps: &str, seed: &str) -> Option<()> {
    let mut steps: usize = steps.parse().ok()?;
    let mut random = Random::new(seed.parse().ok()?);
    let mut all: Vec<Costed> = starts::starts().into_iter().map(Costed::new).collect();
    loop {
        for costed in &mut all {
            *costed = climb(costed, steps, &mut random);
        }
        all.sort_by(|one, other| other.cost.total_cmp(&one.cost));
        eprintln!("{:.0} instructions by the model", all[0].cost);
        if all.len() == 1 {
            break;
        }
        all.truncate(all.len() / 2);
        steps *= 2;
    }
    print!("{}", text::write(&all[0].candidate));
    Some(())
}

/// The candidates of a file.
fn load(file: &str) -> Option<Vec<Candidate>> {
    text::read(&std::fs::read_to_string(file).ok()?)
}

/// What a call of the library gives.
type Outcome = Result<u64, Refusal>;

fn read_each(file: &str, read: fn(&Candidate) -> Outcome) -> Option<()> {
    for candidate in load(file)? {
        println!("{:?}", read(&candidate));
    }
    Some(())
}

fn read_line(candidate: &Candidate) -> Outcome {
    let (book, line) = (candidate.book(), candidate.line_bytes());
    (LIBRARY.read_line)(&book, &line, &mut [0; MAX_VALUES])
}

fn read_batch(candidate: &Candidate) -> Outcome {
    let (book, lines) = (candidate.book(), candidate.batch_bytes());
    (LIBRARY.read_batch)(&book, &lines, &mut [0; MAX_BATCH_VALUES])
}

fn spread(count: &str, seed: &str) -> Option<()> {
    for candidate in fit::spread(count.parse().ok()?, seed.parse().ok()?) {
        print!("{}", text::write(&candidate));
    }
    Some(())
}

/// Prints the weights, and by how much the model errs with them at most.
fn print_fit(file: &str, counts: &str) -> Option<()> {
    let candidates = load(file)?;
    let counts = std::fs::read_to_string(counts).ok()?;
    let counts: Option<Vec<f64>> = counts.lines().map(|count| count.parse().ok()).collect();
    let counts = counts.filter(|counts| counts.len() == candidates.len())?;
    let weights = fit::fit(&candidates, &counts);
    for weight in weights.0 {
        println!("{weight:.2},");
    }
    let error = |(candidate, count): (&Candidate, &f64)| {
        (model::count(candidate).cost(&weights) / count - 1.0).abs()
    };
    let errors = candidates.iter().zip(&counts).map(error);
    println!("largest error: {:.4}", errors.fold(0.0, f64::max));
    Some(())
}

#[cfg(test)]
mod tests {
    use super::*;
    use crate::books::word_ranges;
    use crate::readers::TWIN;
    use crate::twin::figures::limits::MAX_TARGETS;
    use crate::twin::figures::refusals::NO_READING;
    use crate::twin::keys::key_of;

    /// The exponents of the twin's choice with the target's behind them; none where there is no reading.
    fn string_of_the_twin(candidate: &Candidate) -> Vec<i8> {
        let (book, line) = (candidate.book(), candidate.line_bytes());
        let mut answer = [0; MAX_VALUES];
        if let Err(refusal) = (TWIN.read_line)(&book, &line, &mut answer) {
            assert_eq!(refusal, (NO_READING, 0));
            return Vec::new();
        }
        let entries = candidate.entries();
        let chosen = answer[2..].iter().take(candidate.line.len());
        let simples = chosen.flat_map(|&entry| entries[entry as usize].1);
        simples.copied().chain([1]).collect()
    }

    #[test]
    fn model_reads_as_the_twin_does() {
        for candidate in fit::spread(12, 1) {
            for targets in 1..=MAX_TARGETS {
                let candidate = Candidate {
                    targets,
                    ..candidate.clone()
                };
                let string = model::read(&candidate).string;
                assert_eq!(string, string_of_the_twin(&candidate));
            }
        }
    }

    #[test]
    fn batch_has_32_lines() {
        for candidate in fit::spread(2, 1) {
            let (book, lines) = (candidate.book(), candidate.batch_bytes());
            let outcome = (TWIN.read_batch)(&book, &lines, &mut [0; MAX_BATCH_VALUES]);
            assert_eq!(outcome, Ok(32));
        }
    }

    #[test]
    fn text_is_read_back() {
        for candidate in fit::spread(12, 2) {
            let text = text::write(&candidate);
            let read = text::read(&text).expect("the text is read");
            assert_eq!(read.len(), 1);
            assert_eq!(text::write(&read[0]), text);
            assert_eq!(read[0].book(), candidate.book());
        }
    }

    #[test]
    fn text_without_targets_has_one() {
        let read = text::read("word 0\nline 0\n").expect("the text is read");
        assert_eq!(read[0].targets, 1);
    }

    /// The keys of a candidate's words are those that the model takes them to have.
    #[test]
    fn words_share_a_key_or_none() {
        for candidate in fit::spread(12, 1) {
            let book = candidate.book();
            let words = word_ranges(&book).into_iter().map(|range| &book[range]);
            let keys: Vec<usize> = words.map(key_of).collect();
            let entries = candidate.entries();
            assert_eq!((keys.len(), entries.len()), (1024, 1024));
            for (key, entry) in keys.iter().zip(&entries) {
                let shared = candidate.strangers.is_some() || entry.0 == entries[0].0;
                assert_eq!(*key == keys[0], shared);
            }
        }
    }
}
