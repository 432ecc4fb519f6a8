//! The targets of a book: how many it has, of which types, and where they stand.

use crate::books::Records;
use crate::random::Random;

/// How many targets: mostly one to four, sometimes up to eight, seldom nine, which is one too many.
fn count(random: &mut Random) -> usize {
    match random.below(50) {
        0 => 9,
        1..=9 => 5 + random.below(4),
        _ => 1 + random.below(4),
    }
}

/// The targets of a book of so many basic types, equal ones too. Sometimes all but the last are equal, so that it may well be the last
/// alone that has a reading.
pub fn any(random: &mut Random, types: usize) -> Vec<u8> {
    let count = count(random);
    let mut targets: Vec<u8> = (0..count).map(|_| random.below(types) as u8).collect();
    if random.chance(1, 3) {
        let first = targets[0];
        targets[..count - 1].fill(first);
    }
    targets
}

/// Puts more targets into a book that has one, if any.
pub fn add(random: &mut Random, records: &mut Records) {
    let more = count(random) - 1;
    add_some(random, records, more);
}

/// Puts so many more targets into a book that begins with its basic types: of any of these, anywhere behind them.
pub fn add_some(random: &mut Random, records: &mut Records, more: usize) {
    let basic_types = records.list.iter().take_while(|record| record[2] == 1);
    let types = basic_types.count();
    for _ in 0..more {
        let mut target = Records::default();
        target.target(random.below(types) as u8);
        let at = types + random.below(records.list.len() + 1 - types);
        records.list.splice(at..at, target.list);
    }
}

#[cfg(test)]
mod tests {
    use super::*;
    use crate::books::{target_ranges, word_ranges};
    use crate::cases::reached::{assert_reached, note, Times};
    use crate::cases::{self, AMPLE};
    use crate::independent::{check_book, read_line};
    use crate::types::Refusal;
    use std::cmp::Ordering::{Equal, Greater, Less};

    const MOST_TARGETS: usize = 8;

    /// The answer of a line with ample buffer.
    fn read(book: &[u8], line: &[u8]) -> Result<Vec<u16>, Refusal> {
        let mut answer = [0; AMPLE];
        let values = read_line(book, line, &mut answer)?;
        Ok(answer[..values as usize].to_vec())
    }

    /// The entry numbers of an answer.
    fn entries(answer: &[u16]) -> &[u16] {
        &answer[2..2 + answer[1] as usize]
    }

    /// The book without its targets up to the one of a number.
    fn without_targets(book: &[u8], last: u16) -> Vec<u8> {
        let mut rest = book.to_vec();
        for range in target_ranges(book)[..=last as usize].iter().rev() {
            rest.drain(range.clone());
        }
        rest
    }

    /// Numbers of targets of accepted books, and where they stand among the entries.
    fn of_accepted(times: &mut Times, book: &[u8]) {
        let targets = target_ranges(book);
        for number in 1..=MOST_TARGETS {
            note(times, format!("{number} targets"), targets.len() == number);
        }
        let words = word_ranges(book);
        let (first, last) = (&targets[0], &targets[targets.len() - 1]);
        let several = targets.len() > 1 && words.len() > 1;
        let before = several && words.iter().all(|word| last.end <= word.start);
        let behind = several && words.iter().all(|word| word.end <= first.start);
        note(times, "all before the entries", before);
        note(times, "all behind the entries", behind);
        let among = several && words.iter().any(|word| first.end <= word.start);
        note(times, "some before, some behind", among && !before);
    }

    /// Targets that books are refused for, among the first eight or as the ninth, and books without one.
    fn of_refused(times: &mut Times, book: &[u8], (number, value): Refusal) {
        let targets = target_ranges(book);
        let place = targets.iter().position(|range| range.start as u64 == value);
        for refusal in [4, 5] {
            for (what, ninth) in [("one of the first eight", false), ("a ninth", true)] {
                let here = place.is_some_and(|place| (place == MOST_TARGETS) == ninth);
                let reached = number == refusal && here;
                note(times, format!("{refusal}, {what}"), reached);
            }
        }
        note(times, "8", number == 8 && place == Some(MOST_TARGETS));
        note(times, "10", number == 10 && targets.is_empty());
    }

    /// For which target lines are read, and whether a later one has a reading too, with which entries.
    fn of_line(times: &mut Times, book: &[u8], line: &[u8]) {
        let targets = target_ranges(book);
        let outcome = read(book, line);
        let none = outcome == Err((15, 0));
        note(times, "15, one target", none && targets.len() == 1);
        note(times, "15, several targets", none && targets.len() > 1);
        let answer = outcome.ok();
        let taken = answer.as_ref().map(|answer| answer[0]);
        for number in 0..MOST_TARGETS as u16 {
            note(times, format!("read for {number}"), taken == Some(number));
        }
        let type_of = |number: usize| book[targets[number].start + 4];
        let equal = taken.is_some_and(|taken| {
            let taken = taken as usize;
            (taken + 1..targets.len()).any(|later| type_of(later) == type_of(taken))
        });
        note(times, "equal targets, first", equal && taken == Some(0));
        note(times, "equal targets, later", equal && taken > Some(0));
        let later = answer.as_ref().and_then(|answer| {
            let later = read(&without_targets(book, answer[0]), line).ok()?;
            Some(entries(&later).cmp(entries(answer)))
        });
        let first = taken == Some(0);
        for (what, than_taken) in [("smaller", Less), ("same", Equal), ("greater", Greater)] {
            let reached = first && later == Some(than_taken);
            note(times, format!("{what} entries for a later one"), reached);
        }
        let between = taken > Some(0) && later == Some(Less);
        note(times, "smaller entries, not for the first", between);
    }

    /// Numbers of values lent for answers of a later target than the first.
    fn of_lent(times: &mut Times, answer: &[u16], lent: usize) {
        let missing = answer.len().checked_sub(lent).filter(|_| answer[0] > 0);
        note(times, "exactly enough", missing == Some(0));
        note(times, "16, one too few", missing == Some(1));
        note(times, "16, several too few", missing > Some(1));
    }

    #[test]
    fn every_corner_of_targets_is_reached_by_lines() {
        let mut books = Times::new();
        let mut lines = Times::new();
        let mut lent = Times::new();
        for number in 0..20_000 {
            let case = cases::any(&mut Random::for_case(10, number));
            match check_book(&case.book) {
                Ok(_) => {
                    of_accepted(&mut books, &case.book);
                    of_line(&mut lines, &case.book, &case.line);
                    if let Ok(answer) = read(&case.book, &case.line) {
                        of_lent(&mut lent, &answer, case.lent);
                    }
                }
                Err(refusal) => of_refused(&mut books, &case.book, refusal),
            }
        }
        assert_reached("books", &books, 17);
        assert_reached("lines", &lines, 16);
        assert_reached("a later target", &lent, 3);
    }

    #[test]
    fn every_corner_of_targets_is_reached_by_batches() {
        let mut times = Times::new();
        let mut lines = Times::new();
        for number in 0..10_000 {
            let batch = cases::batch(&mut Random::for_case(11, number));
            if check_book(&batch.book).is_err() {
                continue;
            }
            let mut taken = vec![];
            for line in batch.lines.split(|byte| *byte == 10) {
                of_line(&mut lines, &batch.book, line);
                taken.extend(read(&batch.book, line).map(|answer| answer[0]));
            }
            taken.dedup();
            note(&mut times, "lines of different targets", taken.len() > 1);
        }
        assert_reached("batches", &times, 1);
        assert_reached("lines of batches", &lines, 16);
    }
}
