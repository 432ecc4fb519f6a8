//! Times the library and its twin side by side: each round runs both, one behind the other, and the smallest time of each over all rounds
//! counts.
use crate::readers::{Reader, LIBRARY, TWIN};
use crate::samples::{self, BatchSample, Growth, Sample};
use crate::types::InTheWay;
use std::hint::black_box;
use std::time::{Duration, Instant};

/// How many values are lent for an answer.
const VALUES: usize = 512;

/// How often all samples of a table are gone through, so that a slow spell of the machine does not fall on one alone.
const PASSES: usize = 5;

/// In one pass of a sample: how long both warm up together, how long each runs in one round, and how long all rounds take, at least.
const WARM_UP: Duration = Duration::from_millis(5);
const ROUND: Duration = Duration::from_micros(500);
const ROUNDS: Duration = Duration::from_millis(60);

/// An entry that reads a line, of a reader.
type Entry = fn(&Reader, &Sample, &mut [u16]) -> InTheWay;

const READ_LINE: Entry = |reader, sample, answer| {
    let read = (reader.read_line)(black_box(&sample.book), black_box(&sample.line), answer);
    read.map_err(|refusal| (refusal, None))
};

const WORDS_IN_THE_WAY: Entry = |reader, sample, answer| {
    (reader.words_in_the_way)(black_box(&sample.book), black_box(&sample.line), answer)
};

/// The times of a call in nanoseconds, one for each round.
#[derive(Clone, Default)]
struct Rounds {
    library: Vec<f64>,
    twin: Vec<f64>,
}

impl Rounds {
    /// The smallest time of the library, and of the twin.
    fn smallest(&self) -> (f64, f64) {
        let least = |times: &[f64]| times.iter().copied().fold(f64::INFINITY, f64::min);
        (least(&self.library), least(&self.twin))
    }

    /// The median of the ratios of library to twin in each round.
    fn median_ratio(&self) -> f64 {
        let mut ratios: Vec<f64> = self
            .library
            .iter()
            .zip(&self.twin)
            .map(|(library, twin)| library / twin)
            .collect();
        ratios.sort_by(f64::total_cmp);
        ratios[ratios.len() / 2]
    }
}

/// The time of so many calls.
fn run(calls: usize, call: &mut impl FnMut()) -> Duration {
    let start = Instant::now();
    for _ in 0..calls {
        call();
    }
    start.elapsed()
}

/// Runs both until caches and clock have settled.
fn warm_up(library: &mut impl FnMut(), twin: &mut impl FnMut()) {
    let start = Instant::now();
    while start.elapsed() < WARM_UP {
        library();
        twin();
    }
}

/// How many calls fill a round.
fn calls_for_round(library: &mut impl FnMut(), twin: &mut impl FnMut()) -> usize {
    let mut calls = 1;
    loop {
        let spent = run(calls, library).min(run(calls, twin));
        if spent >= ROUND {
            return calls;
        }
        calls *= 2;
    }
}

/// Times both, in rounds that take turns in which goes first.
fn pair(rounds: &mut Rounds, mut library: impl FnMut(), mut twin: impl FnMut()) {
    warm_up(&mut library, &mut twin);
    let calls = calls_for_round(&mut library, &mut twin);
    let per_call = |spent: Duration| spent.as_nanos() as f64 / calls as f64;
    let start = Instant::now();
    while start.elapsed() < ROUNDS {
        if rounds.library.len().is_multiple_of(2) {
            rounds.library.push(per_call(run(calls, &mut library)));
            rounds.twin.push(per_call(run(calls, &mut twin)));
        } else {
            rounds.twin.push(per_call(run(calls, &mut twin)));
            rounds.library.push(per_call(run(calls, &mut library)));
        }
    }
}

/// Stops where the two do not answer a sample alike.
fn compare_answers(entry: Entry, sample: &Sample) {
    let mut ours = [0; VALUES];
    let mut theirs = [0; VALUES];
    let result = entry(&LIBRARY, sample, &mut ours);
    let other = entry(&TWIN, sample, &mut theirs);
    assert_eq!(result, other, "{}", sample.name);
    assert_eq!(ours, theirs, "{}", sample.name);
}

/// Times both on a sample.
fn time_line(entry: Entry, rounds: &mut Rounds, sample: &Sample) {
    let mut ours = [0; VALUES];
    let mut theirs = [0; VALUES];
    let call = |reader: Reader, answer: &mut [u16]| {
        let _ = black_box(entry(&reader, sample, answer));
    };
    pair(
        rounds,
        || call(LIBRARY, &mut ours),
        || call(TWIN, &mut theirs),
    );
}

/// Times both on samples, in several passes.
fn time_lines(entry: Entry, samples: &[&Sample]) -> Vec<Rounds> {
    for sample in samples {
        compare_answers(entry, sample);
    }
    let mut all = vec![Rounds::default(); samples.len()];
    for _ in 0..PASSES {
        for (sample, rounds) in samples.iter().zip(&mut all) {
            time_line(entry, rounds, sample);
        }
    }
    all
}

/// Prints the head of a table.
fn head(title: &str) {
    println!("\n{title}");
    println!(
        "{:56} {:>12} {:>12} {:>7} {:>13}",
        "sample", "library ns", "twin ns", "ratio", "median ratio"
    );
}

/// Prints a row: the smallest times, their ratio and the median of the rounds' ratios.
fn row(name: &str, rounds: &Rounds) {
    let (library, twin) = rounds.smallest();
    println!(
        "{name:56} {library:>12.0} {twin:>12.0} {:>7.2} {:>13.2}",
        library / twin,
        rounds.median_ratio()
    );
}

/// Times the check of named books and prints their table.
fn books(title: &str, books: &[(String, Vec<u8>)]) {
    head(title);
    for (name, book) in books {
        assert_eq!(
            (LIBRARY.check_book)(book),
            (TWIN.check_book)(book),
            "{name}"
        );
        let call = |reader: Reader| {
            let _ = black_box((reader.check_book)(black_box(book)));
        };
        let mut rounds = Rounds::default();
        for _ in 0..PASSES {
            pair(&mut rounds, || call(LIBRARY), || call(TWIN));
        }
        row(name, &rounds);
    }
}

/// Times all samples by an entry and prints their table.
fn lines(title: &str, entry: Entry, samples: &[Sample]) {
    let all: Vec<&Sample> = samples.iter().collect();
    let times = time_lines(entry, &all);
    head(title);
    for (sample, rounds) in samples.iter().zip(&times) {
        row(&sample.name, rounds);
    }
}

/// Reads by a reader into a buffer.
type Call<'a> = &'a dyn Fn(Reader, &mut [u16]);

/// Times lines that are read in one batch and one by one, and prints their table.
fn batch(title: &str, sample: &BatchSample) {
    let lines = sample.together();
    let together = |reader: Reader, answers: &mut [u16]| {
        let result = (reader.read_batch)(black_box(&sample.book), black_box(&lines), answers);
        black_box(result).expect("the batch is answered");
    };
    let alone = |reader: Reader, answers: &mut [u16]| {
        for line in &sample.lines {
            let result = (reader.read_line)(black_box(&sample.book), black_box(line), answers);
            let _ = black_box(result);
        }
    };
    let ways: [(&str, Call); 2] = [("in one batch", &together), ("one by one", &alone)];
    head(title);
    let [one_batch, one_by_one] = ways.map(|(name, call)| {
        let rounds = time_batch(call);
        row(name, &rounds);
        rounds.smallest()
    });
    println!(
        "{:56} {:>12.2} {:>12.2}",
        "ratio of the two",
        one_batch.0 / one_by_one.0,
        one_batch.1 / one_by_one.1
    );
}

/// Times both on a batch, which they must answer alike.
fn time_batch(call: Call) -> Rounds {
    let mut ours = [0; vurzhelik::MAX_BATCH_VALUES];
    let mut theirs = [0; vurzhelik::MAX_BATCH_VALUES];
    call(LIBRARY, &mut ours);
    call(TWIN, &mut theirs);
    assert_eq!(ours, theirs);
    let mut rounds = Rounds::default();
    for _ in 0..PASSES {
        pair(
            &mut rounds,
            || call(LIBRARY, &mut ours),
            || call(TWIN, &mut theirs),
        );
    }
    rounds
}

/// Times one kind of line for several numbers of simple types and prints how its cost grows from each to the next.
fn growth(growth: &Growth) {
    let all: Vec<&Sample> = growth.steps.iter().map(|(_, sample)| sample).collect();
    let times = time_lines(READ_LINE, &all);
    println!("\nGrowth: {}", growth.name);
    println!(
        "{:>6} {:>12} {:>8} {:>12} {:>8} {:>7}",
        "N", "library ns", "factor", "twin ns", "factor", "ratio"
    );
    let factor = |now: f64, then: Option<f64>| match then {
        Some(then) => format!("{:.2}", now / then),
        None => "-".to_string(),
    };
    let mut before: Option<(f64, f64)> = None;
    for ((size, _), rounds) in growth.steps.iter().zip(&times) {
        let (ours, theirs) = rounds.smallest();
        println!(
            "{size:>6} {ours:>12.0} {:>8} {theirs:>12.0} {:>8} {:>7.2}",
            factor(ours, before.map(|then| then.0)),
            factor(theirs, before.map(|then| then.1)),
            ours / theirs
        );
        before = Some((ours, theirs));
    }
}

/// Times books, lines of all kinds, a batch and the words in the way of lines without a reading, and prints their tables.
pub fn tables() {
    books("Books checked alone", &samples::books());
    lines("Typical lines", READ_LINE, &samples::typical());
    batch("32 typical lines", &samples::batch());
    lines("Hard lines", READ_LINE, &samples::hard());
    lines("Full books", READ_LINE, &samples::full());
    lines("Slash notation", READ_LINE, &samples::slashed());
    lines("Words in the way", WORDS_IN_THE_WAY, &samples::unread());
    for kind in samples::growth() {
        growth(&kind);
    }
}
