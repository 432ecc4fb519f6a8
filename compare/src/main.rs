//! Compares the proved library with an independent reader on random cases, and times it beside a twin in Rust.
//!
//! - `compare cases [CASES] [SEED]`: the comparison, on lines, on batches of lines and on lines with the words in their way; it ends with
//!   status 1 at the first difference. Standard error shows how far it has come.
//! - `compare ways [CASES] [SEED]`: the same on lines with the words in their way alone, most of which have no reading.
//! - `compare listings PROGRAM [CASES] [SEED]`: what the program `reading` prints, run once for each case, compared with the independent
//!   reader's listing byte for byte, in the same way.
//! - `compare bench`: the times.
//! - `compare once library|twin SAMPLE`: one sample read once, for a tool that counts instructions.
//! - `compare way library|twin SAMPLE`: the same with the words in its way.
//! - `compare batch library|twin together|alone`: the benchmark's batch read once, in one call or line by line.
//! - `compare check library|twin BOOK`: one of the benchmark's books checked once.
//! - `compare samples`, `compare books`: their names.
//! - `compare search [STEPS] [SEED]`: a search for the dearest line.

mod bench;
mod books;
#[cfg(test)]
mod brute_force;
mod cases;
mod compare;
#[cfg(test)]
mod document_batches;
#[cfg(test)]
mod document_cases;
#[cfg(test)]
mod document_listings;
#[cfg(test)]
mod document_slashes;
#[cfg(test)]
mod document_targets;
#[cfg(test)]
mod document_ways;
mod independent;
mod progress;
mod random;
mod readers;
mod samples;
mod search;
mod slashes;
mod twin;
mod types;

use readers::{LIBRARY, TWIN};
use std::process::ExitCode;

const USAGE: &str = "compare cases|ways [CASES] [SEED] | listings PROGRAM [CASES] [SEED] | bench \
    | once|way library|twin SAMPLE | samples | batch library|twin together|alone \
    | check library|twin BOOK | books | search [STEPS] [SEED]";

fn main() -> ExitCode {
    let arguments: Vec<String> = std::env::args().skip(1).collect();
    let arguments: Vec<&str> = arguments.iter().map(String::as_str).collect();
    let done = match arguments[..] {
        ["cases", ref rest @ ..] => cases(compare::ALL, rest),
        ["ways", ref rest @ ..] => cases(compare::WAYS_ALONE, rest),
        ["listings", program, ref rest @ ..] => listings(program, rest),
        ["bench"] => {
            bench::tables();
            true
        }
        ["once", "library", sample] => once(&LIBRARY, sample),
        ["once", "twin", sample] => once(&TWIN, sample),
        ["way", "library", sample] => way(&LIBRARY, sample),
        ["way", "twin", sample] => way(&TWIN, sample),
        ["samples"] => {
            for sample in samples::all() {
                println!("{}", sample.name);
            }
            true
        }
        ["batch", "library", "together"] => together(&LIBRARY),
        ["batch", "twin", "together"] => together(&TWIN),
        ["batch", "library", "alone"] => alone(&LIBRARY),
        ["batch", "twin", "alone"] => alone(&TWIN),
        ["check", "library", book] => check(&LIBRARY, book),
        ["check", "twin", book] => check(&TWIN, book),
        ["books"] => {
            for (name, _) in samples::books() {
                println!("{name}");
            }
            true
        }
        ["search", ref rest @ ..] => search::command(rest),
        _ => usage(),
    };
    match done {
        true => ExitCode::SUCCESS,
        false => ExitCode::FAILURE,
    }
}

/// Compares so many cases of a seed, a million of seed 1 where nothing is said.
fn cases(streams: &[compare::Stream], arguments: &[&str]) -> bool {
    match count_and_seed(arguments, 1_000_000) {
        Some((count, seed)) => compare::run(streams, count, seed, &[LIBRARY, TWIN]),
        None => usage(),
    }
}

/// Compares so many listings of a program, a hundred thousand of seed 1 where nothing is said.
fn listings(program: &str, arguments: &[&str]) -> bool {
    match count_and_seed(arguments, 100_000) {
        Some((count, seed)) => compare::listings::run(program, count, seed),
        None => usage(),
    }
}

/// The number of cases and the seed that arguments say, or so many cases and seed 1.
fn count_and_seed(arguments: &[&str], usual: u64) -> Option<(u64, u64)> {
    match arguments[..] {
        [] => Some((usual, 1)),
        [count] => Some((count.parse().ok()?, 1)),
        [count, seed] => Some((count.parse().ok()?, seed.parse().ok()?)),
        _ => None,
    }
}

/// Prints how the program is called.
fn usage() -> bool {
    eprintln!("{USAGE}");
    false
}

/// The sample of a name; where there is none, that is printed.
fn sample(name: &str) -> Option<samples::Sample> {
    let sample = samples::all().into_iter().find(|s| s.name == name);
    if sample.is_none() {
        eprintln!("no sample of that name");
    }
    sample
}

/// Reads a sample once and prints what comes back.
fn once(reader: &readers::Reader, name: &str) -> bool {
    let read = |sample: samples::Sample| {
        let outcome = (reader.read_line)(&sample.book, &sample.line, &mut [0; 512]);
        println!("{outcome:?}");
    };
    sample(name).map(read).is_some()
}

/// Reads a sample once with the words in its way and prints what comes back.
fn way(reader: &readers::Reader, name: &str) -> bool {
    let read = |sample: samples::Sample| {
        let outcome = (reader.words_in_the_way)(&sample.book, &sample.line, &mut [0; 512]);
        println!("{outcome:?}");
    };
    sample(name).map(read).is_some()
}

/// Reads the benchmark's batch once and prints what comes back.
fn together(reader: &readers::Reader) -> bool {
    let sample = samples::batch();
    let mut answers = [0; vurzhelik::MAX_BATCH_VALUES];
    let outcome = (reader.read_batch)(&sample.book, &sample.together(), &mut answers);
    println!("{outcome:?}");
    true
}

/// Reads the lines of the benchmark's batch one by one and prints what comes back.
fn alone(reader: &readers::Reader) -> bool {
    let sample = samples::batch();
    for line in &sample.lines {
        let outcome = (reader.read_line)(&sample.book, line, &mut [0; 512]);
        println!("{outcome:?}");
    }
    true
}

/// Checks a book of the benchmark once and prints what comes back.
fn check(reader: &readers::Reader, name: &str) -> bool {
    let Some((_, book)) = samples::books().into_iter().find(|(n, _)| *n == name) else {
        eprintln!("no book of that name");
        return false;
    };
    println!("{:?}", (reader.check_book)(&book));
    true
}
