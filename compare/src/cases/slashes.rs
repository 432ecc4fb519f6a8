//! Entries in slash notation: types of a book written as texts, and texts of every kind, right and damaged.

use super::ambiguous::Small;
use super::{joined, lend, Case};
use crate::books::{entry, kind_of, record, record_ranges, slashed_entry, Records};
use crate::independent;
use crate::random::Random;
use crate::slashes::{deepest, name_ranges, Tree};

const MOST_BOOK_BYTES: usize = 65_535;
const MOST_ENTRIES: usize = 1_024;

/// Names of which some begin others, and names of 14 and 15 bytes that differ in one.
const NAMES: [&str; 12] = [
    "s",
    "n",
    "np",
    "x1",
    "x10",
    "o",
    "q",
    "abcdefghijklmn",
    "abcdefghijklmno",
    "abcdefghijklmnp",
    "bbcdefghijklmno",
    "z00000000000000",
];

/// Texts that are no types, with too many brackets, or with little in them.
const ODD_TEXTS: [&str; 44] = [
    "",
    "()",
    "(())",
    ")",
    "(",
    ")(",
    ")(((((((",
    ")((((((((",
    "()(((((((",
    "())(((((((",
    "(((((((",
    "((((((",
    "((((((()))))))",
    "((((((s))))))",
    "(((((((s)))))))",
    "((((((s)))))",
    "(((((s))))))",
    "s/s/s",
    "s\\s\\s",
    "s/s\\s",
    "(s/s/s)",
    "/",
    "\\",
    "/s",
    "s/",
    "s//s",
    "s/\\s",
    "\\s",
    "s\\",
    "(s)(s)",
    "(s)s",
    "s(s)",
    " s",
    "s ",
    "s /s",
    "s s",
    "S",
    "sS",
    "0",
    "0s",
    "s/0s",
    "(s",
    "s)",
    "nobody",
];

/// Writes types of a book's entries as texts, where that can be done and the book does not get too long by it. An accepted book is
/// returned as it was: both have the same outcome with every line.
pub fn rewrite(random: &mut Random, book: &mut Vec<u8>) -> Option<Vec<u8>> {
    let share = *random.pick(&[1, 3, 5, 5]);
    let mut names: Vec<&[u8]> = vec![];
    let mut rewritten = vec![];
    for range in record_ranges(book) {
        let one = &book[range];
        let body = &one[4..];
        match kind_of(one) {
            1 => names.push(body),
            3 if random.chance(share, 5) => {
                if let Some(text) = slashed(random, &names, body) {
                    rewritten.extend(text);
                    continue;
                }
            }
            _ => {}
        }
        rewritten.extend(one);
    }
    let whole = record_ranges(book).last().map_or(0, |range| range.end);
    rewritten.extend(&book[whole..]);
    if rewritten == *book || rewritten.len() > MOST_BOOK_BYTES {
        return None;
    }
    let before = std::mem::replace(book, rewritten);
    Some(before).filter(|before| independent::check_book(before).is_ok())
}

/// The record in slash notation for the body of a kind 3 entry, where its type can be written.
fn slashed(random: &mut Random, names: &[&[u8]], body: &[u8]) -> Option<Vec<u8>> {
    let length = *body.first()? as usize;
    let word = body.get(1..1 + length)?;
    let simple_types = body[1 + length..].chunks_exact(2);
    if !simple_types.remainder().is_empty() || simple_types.len() > 12 {
        return None;
    }
    let simple_types: Vec<(u8, i8)> = simple_types.map(|s| (s[0], s[1] as i8)).collect();
    if simple_types.iter().any(|s| s.0 as usize >= names.len()) {
        return None;
    }
    let tree = Tree::of(random, &simple_types)?;
    Some(slashed_entry(word, &tree.loose_text(random, names)))
}

/// How many names a text has: mostly a few, sometimes about twelve.
fn count(random: &mut Random) -> usize {
    match random.below(12) {
        0 => 10 + random.below(4),
        1 => 1 + random.below(12),
        _ => 1 + random.below(5),
    }
}

/// The text of a type over the given names.
fn text(random: &mut Random, names: &[&str]) -> Vec<u8> {
    let count = count(random);
    Tree::random(random, names.len(), count).loose_text(random, names)
}

/// A text that may have any fault.
fn faulty_text(random: &mut Random, names: &[&str]) -> Vec<u8> {
    let mut text = match random.below(8) {
        0 | 1 => random.pick(&ODD_TEXTS).as_bytes().to_vec(),
        2 => many_names(random, names),
        _ => text(random, names),
    };
    if random.chance(1, 4) {
        exchange_name(random, &mut text, names);
    }
    if random.chance(1, 4) {
        add_brackets(random, &mut text);
    }
    if random.chance(1, 3) {
        damage(random, &mut text);
    }
    if random.chance(1, 10) {
        damage(random, &mut text);
    }
    text
}

/// A text of twelve names, of thirteen or of many.
fn many_names(random: &mut Random, names: &[&str]) -> Vec<u8> {
    let many = 14 + random.below(120);
    let count = *random.pick(&[12, 13, 13, many]);
    Tree::random(random, names.len(), count).text(names)
}

/// Puts another name in the place of one: undeclared, often, or of 15 or 16 bytes.
fn exchange_name(random: &mut Random, text: &mut Vec<u8>, names: &[&str]) {
    let ranges = name_ranges(text);
    if ranges.is_empty() {
        return;
    }
    let range = random.pick(&ranges).clone();
    let mut name = text[range.clone()].to_vec();
    match random.below(6) {
        0 => name.push(b'a' + random.below(26) as u8),
        1 => drop(name.pop()),
        2 => name = vec![b'z'; 15],
        3 => name = vec![b'z'; 16],
        4 => name = format!("{}0", random.pick(names)).into_bytes(),
        _ => name = random.pick(&NAMES).as_bytes().to_vec(),
    }
    text.splice(range, name);
}

/// Puts brackets around the text, so many that six or seven are open at once, or a few of one kind at some place.
fn add_brackets(random: &mut Random, text: &mut Vec<u8>) {
    if random.chance(1, 2) {
        let most = 6 + random.below(2) as isize;
        let more = most - deepest(text);
        for _ in 0..more.max(0) {
            *text = [b"(", &text[..], b")"].concat();
        }
    } else {
        let at = random.below(text.len() + 1);
        let bracket = *random.pick(b"()");
        let some = vec![bracket; 1 + random.below(8)];
        text.splice(at..at, some);
    }
}

/// A change to the bytes.
fn damage(random: &mut Random, text: &mut Vec<u8>) {
    let byte = match random.below(6) {
        0 => random.below(256) as u8,
        1 => *random.pick(&[0, 9, 10, 32, 127, 255]),
        2 => *random.pick(b"AZ[]{}<>|-^.`@:"),
        3 => *random.pick(b"az09"),
        _ => *random.pick(b"()/\\"),
    };
    let at = random.below(text.len() + 1);
    match random.below(4) {
        0 => text.insert(at, byte),
        1 if at < text.len() => drop(text.remove(at)),
        2 if at < text.len() => text[at] ^= 1 << random.below(8),
        _ if at < text.len() => text[at] = byte,
        _ => text.push(byte),
    }
}

/// An entry with a text that may have any fault, and sometimes with one in its word.
pub fn faulty_entry(random: &mut Random, names: &[&str]) -> Vec<u8> {
    let text = faulty_text(random, names);
    let word = match random.below(40) {
        0 => vec![],
        1 => vec![b'w'; 31 + random.below(2)],
        2 => random.pick(&["w w", "w\x7f", "\x1f"]).as_bytes().to_vec(),
        _ => b"w".to_vec(),
    };
    let mut made = slashed_entry(&word, &text);
    match random.below(60) {
        0 => made[4] = (made.len() - 4) as u8,
        1 => made[4] = (made.len() - 5) as u8,
        2 => made.truncate(4),
        3 => made.truncate(5),
        _ => return made,
    }
    record(5, &made[4..])
}

/// Fills a book with entries of a word that no line has, of both kinds, up to the last one that it may have or nearly so.
fn fill(random: &mut Random, records: &mut Records, name: &str) {
    let entries = |record: &&Vec<u8>| matches!(record[2], 3 | 5);
    let present = records.list.iter().filter(entries).count();
    let room = MOST_ENTRIES.saturating_sub(present + random.below(2));
    for _ in 0..room {
        records.list.push(match random.chance(1, 2) {
            true => slashed_entry(b"filler", name.as_bytes()),
            false => entry(b"filler", &[]),
        });
    }
}

/// A small book with entries of both kinds, often for one word, and a line over its words; often one more entry that may have any fault.
pub fn slashes(random: &mut Random) -> Case {
    let small = Small::new(random);
    let mut names = NAMES;
    random.shuffle(&mut names);
    let mut records = small.records_with(random, &names);
    let declared = &names[..small.types.count];
    if random.chance(1, 60) {
        fill(random, &mut records, names[0]);
    }
    for _ in 0..random.below(4) {
        let text = text(random, declared);
        let (word, _) = random.pick(&small.entries);
        let one = slashed_entry(word, &text);
        insert(random, &mut records, declared.len(), one);
    }
    if random.chance(1, 2) {
        // One name more is declared late or not at all.
        let names = &names[..declared.len() + random.below(2)];
        let one = faulty_entry(random, names);
        insert(random, &mut records, declared.len(), one);
    }
    let line = joined(random, &small.words);
    lend(random, "slashes", records.bytes(), line)
}

/// Puts a record in behind the basic types: at the end, or anywhere; seldom among them.
fn insert(random: &mut Random, records: &mut Records, basic_types: usize, record: Vec<u8>) {
    let last = records.list.len();
    let any = basic_types + random.below(last + 1 - basic_types);
    let early = random.below(last + 1);
    let at = match random.below(12) {
        0 => early,
        1..=6 => any,
        _ => last,
    };
    records.list.insert(at, record);
}

#[cfg(test)]
mod tests {
    use super::*;
    use crate::books::word_ranges;
    use crate::cases::reached::{assert_reached, note, Times};
    use crate::cases::{self, AMPLE};
    use crate::independent::{check_book, read_line};
    use crate::types::Refusal;

    /// The text of a record in slash notation.
    fn text_of(record: &[u8]) -> Option<&[u8]> {
        let length = *record.get(4)? as usize;
        record.get(5 + length..).filter(|_| kind_of(record) == 5)
    }

    /// The records of a book.
    fn records_of(book: &[u8]) -> Vec<&[u8]> {
        let ranges = record_ranges(book).into_iter();
        ranges.map(|range| &book[range]).collect()
    }

    /// The entries of a book.
    fn entries_of(book: &[u8]) -> Vec<&[u8]> {
        let mut records = records_of(book);
        records.retain(|record| matches!(kind_of(record), 3 | 5));
        records
    }

    /// What texts of accepted books hold.
    fn of_accepted(times: &mut Times, book: &[u8]) {
        let entries = entries_of(book);
        let texts: Vec<&[u8]> = entries.iter().filter_map(|entry| text_of(entry)).collect();
        let some = |fits: &dyn Fn(&[u8]) -> bool| texts.iter().any(|text| fits(text));
        for count in [1, 2, 4, 12] {
            let names = some(&|text| name_ranges(text).len() == count);
            note(times, format!("{count} names"), names);
        }
        let long = some(&|text| name_ranges(text).iter().any(|name| name.len() == 15));
        note(times, "name of 15 bytes", long);
        let deep = |open: isize| some(&|text| deepest(text) == open);
        note(times, "no bracket", deep(0));
        note(times, "six brackets open", deep(6));
        let needless = some(&|text| text.first() == Some(&b'(') && name_ranges(text).len() == 1);
        note(times, "a name in brackets", needless);
        for slash in ["/", "\\"] {
            let has = some(&|text| text.contains(&slash.as_bytes()[0]));
            note(times, slash, has);
        }
        let full = entries.len() == MOST_ENTRIES && texts.len() > 100;
        note(times, "1,024 entries of both kinds", full);
        let last = entries.last().is_some_and(|entry| kind_of(entry) == 5);
        note(times, "entry 1,023 has a text", full && last);
    }

    /// Records in slash notation that books are refused for, by their texts.
    fn of_refused(times: &mut Times, book: &[u8], (number, value): Refusal) {
        let names: Vec<&[u8]> = records_of(book)
            .into_iter()
            .filter(|record| kind_of(record) == 1)
            .map(|record| &record[4..])
            .collect();
        let at = |range: &std::ops::Range<usize>| range.start as u64 == value;
        let record = record_ranges(book).into_iter().find(at);
        let record = record.map_or(&book[..0], |range| &book[range]);
        let slashed = record.len() >= 4 && kind_of(record) == 5;
        for cause in [4, 5, 9, 19, 20, 21] {
            note(times, cause.to_string(), slashed && number == cause);
        }
        let text = match slashed {
            true => text_of(record).unwrap_or(b"?"),
            false => b"?",
        };
        let found = name_ranges(text);
        let undeclared = |name: &&[u8]| !names.contains(name);
        let undeclared = found.iter().any(|range| undeclared(&&text[range.clone()]));
        let long = |length: usize| found.iter().any(|range| range.len() == length);
        let has = |bytes: &[u8]| text.iter().any(|byte| bytes.contains(byte));
        let deep = deepest(text);
        let mut reached = |what: &str, cause: u32, fits: bool| {
            note(times, what, slashed && number == cause && fits);
        };
        reached("4, no body", 4, record.len() == 4);
        reached("4, too deep too", 4, deep > 6);
        reached("19, seven open", 19, deep == 7);
        reached("19, eight open or more", 19, deep > 7);
        reached("19, a closing one first", 19, text.starts_with(b")"));
        reached("20, one closing, seven opening", 20, text == b")(((((((");
        reached("20, empty", 20, text.is_empty());
        reached("20, ()", 20, text == b"()");
        reached("20, six open", 20, deep == 6);
        reached("20, space", 20, has(b" "));
        reached("20, capital", 20, has(b"ABCDEFGHIJKLMNOPQRSTUVWXYZ"));
        reached("20, byte 127 or more", 20, text.iter().any(|b| *b > 126));
        reached("20, name of 16 bytes", 20, long(16));
        reached("20, undeclared too", 20, undeclared);
        reached("20, over twelve names", 20, found.len() > 12);
        let slashes = text.iter().filter(|byte| matches!(byte, b'/' | b'\\'));
        let three = slashes.count() == 2 && found.len() == 3 && deep == 0;
        reached("20, three units", 20, three);
        let open = text.iter().filter(|byte| **byte == b'(').count();
        let close = text.iter().filter(|byte| **byte == b')').count();
        reached("20, too many open", 20, open > close);
        reached("20, too many closed", 20, open < close);
        reached("5, name of 15 bytes", 5, long(15));
        reached("5, thirteen names", 5, found.len() == 13);
        reached("5, declared later", 5, !undeclared && !found.is_empty());
        reached("21, thirteen names", 21, found.len() == 13);
        reached("21, over 64 names", 21, found.len() > 64);
    }

    /// Which entries lines are read with.
    fn of_line(times: &mut Times, book: &[u8], line: &[u8]) {
        let mut answer = [0; AMPLE];
        let read = read_line(book, line, &mut answer).is_ok();
        let taken: Vec<usize> = match read {
            true => answer[2..2 + answer[1] as usize].to_vec(),
            false => vec![],
        }
        .into_iter()
        .map(usize::from)
        .collect();
        let entries = entries_of(book);
        let slashed = |number: &&usize| kind_of(entries[**number]) == 5;
        let texts = taken.iter().filter(slashed).count();
        note(times, "a text", texts > 0);
        note(
            times,
            "texts alone",
            taken.len() > 2 && texts == taken.len(),
        );
        note(times, "texts and others", texts > 0 && texts < taken.len());
        let words = word_ranges(book);
        let beside = |number: &usize, kind: u16| {
            let word = &book[words[*number].clone()];
            let same = |other: &usize| book[words[*other].clone()].eq_ignore_ascii_case(word);
            let mut others = (0..entries.len()).filter(same);
            others.any(|other| kind_of(entries[other]) == kind)
        };
        let kind = |number: &usize| kind_of(entries[*number]);
        let takes = |one: u16, other: u16| {
            let both = |number: &usize| kind(number) == one && beside(number, other);
            taken.iter().any(both)
        };
        note(times, "a text beside another kind", takes(5, 3));
        note(times, "another kind beside a text", takes(3, 5));
    }

    #[test]
    fn every_corner_of_texts_is_reached_by_lines() {
        let (mut accepted, mut refused) = (Times::new(), Times::new());
        let (mut lines, mut others) = (Times::new(), Times::new());
        for number in 0..60_000 {
            let random = &mut Random::for_case(14, number);
            let case = match number % 2 {
                0 => cases::any(random),
                _ => slashes(random),
            };
            let plain = case.plain.is_some();
            note(&mut others, "beside a plain book", plain);
            match check_book(&case.book) {
                Ok(_) => {
                    of_accepted(&mut accepted, &case.book);
                    of_line(&mut lines, &case.book, &case.line);
                }
                Err(refusal) => of_refused(&mut refused, &case.book, refusal),
            }
        }
        assert_reached("accepted books", &accepted, 12);
        assert_reached("refused books", &refused, 29);
        assert_reached("lines", &lines, 5);
        assert_reached("cases", &others, 1);
    }

    #[test]
    fn lines_of_batches_are_read_through_texts() {
        let (mut refused, mut lines) = (Times::new(), Times::new());
        for number in 0..10_000 {
            let batch = cases::batch(&mut Random::for_case(15, number));
            match check_book(&batch.book) {
                Ok(_) => {
                    for line in batch.lines.split(|byte| *byte == 10) {
                        of_line(&mut lines, &batch.book, line);
                    }
                }
                Err((number, _)) => {
                    for cause in 19..=21 {
                        note(&mut refused, cause.to_string(), number == cause);
                    }
                }
            }
        }
        assert_reached("batches", &refused, 3);
        assert_reached("lines of batches", &lines, 5);
    }

    /// Whatever lines are read against both books, they get the same.
    #[test]
    fn no_outcome_changes_by_rewriting() {
        let (mut rewritten, mut read) = (0, 0);
        for number in 0..5_000 {
            let random = &mut Random::for_case(16, number);
            let case = cases::any(random);
            let mut book = case.book.clone();
            let Some(before) = rewrite(random, &mut book) else {
                continue;
            };
            let outcome = |book: &[u8]| {
                let mut answer = [0; AMPLE];
                let read = read_line(book, &case.line, &mut answer);
                (check_book(book), read, answer)
            };
            let expected = outcome(&before);
            read += usize::from(expected.1.is_ok());
            assert_eq!(outcome(&book), expected, "case {number}");
            rewritten += 1;
        }
        assert!(rewritten > 1_000 && read > 500, "{rewritten} {read}");
    }
}
