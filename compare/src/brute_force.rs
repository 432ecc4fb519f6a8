//! The reader once more, by trying everything: all choices in order, and for
//! each all partner lists in order, tested against the definition.

use crate::cases;
use crate::independent::{read_line, words_in_the_way};
use crate::random::Random;
use crate::types::Refusal;

type TypeString = Vec<(u8, i8)>;

/// An accepted book, taken apart without any check.
struct Book {
    names: Vec<Vec<u8>>,
    pairs: Vec<(u8, u8)>,
    entries: Vec<(Vec<u8>, TypeString)>,
    targets: Vec<u8>,
}

fn take_apart(bytes: &[u8]) -> Book {
    let mut book = Book {
        names: vec![],
        pairs: vec![],
        entries: vec![],
        targets: vec![],
    };
    let mut rest = bytes;
    while !rest.is_empty() {
        let (head, behind) = rest.split_at(4);
        let (body, behind) = behind.split_at(body_length(head));
        match head[2] {
            1 => book.names.push(body.to_vec()),
            2 => book.pairs.push((body[0], body[1])),
            3 => {
                let (word, simple_types) = body[1..].split_at(body[0] as usize);
                let simple = |b: &[u8]| (b[0], b[1] as i8);
                let simple_types = simple_types.chunks(2).map(simple).collect();
                book.entries.push((word.to_vec(), simple_types));
            }
            4 => book.targets.push(body[0]),
            5 => {
                let (word, text) = body[1..].split_at(body[0] as usize);
                let simple_types = type_of(&book.names, text);
                book.entries.push((word.to_vec(), simple_types));
            }
            _ => {}
        }
        rest = behind;
    }
    book
}

fn body_length(head: &[u8]) -> usize {
    head[0] as usize + 256 * head[1] as usize
}

/// A part of a text in slash notation.
#[derive(Clone, PartialEq)]
enum Part {
    Sign(u8),
    Type(TypeString),
}

/// The type of a text, from the inside out: names become types, and what stands
/// in innermost brackets becomes one type, until one is left.
fn type_of(names: &[Vec<u8>], text: &[u8]) -> TypeString {
    let mut parts: Vec<Part> = vec![Part::Sign(b'(')];
    let mut name = vec![];
    for byte in [text, b")"].concat() {
        if byte.is_ascii_alphanumeric() {
            name.push(byte);
            continue;
        }
        if !name.is_empty() {
            let number = names.iter().position(|other| *other == name).unwrap();
            parts.push(Part::Type(vec![(number as u8, 0)]));
            name.clear();
        }
        parts.push(Part::Sign(byte));
    }
    while parts.len() > 1 {
        let is = |sign: u8| move |part: &Part| *part == Part::Sign(sign);
        let close = parts.iter().position(is(b')')).unwrap();
        let open = parts[..close].iter().rposition(is(b'(')).unwrap();
        let inside = joined(&parts[open + 1..close]);
        parts.splice(open..=close, [Part::Type(inside)]);
    }
    joined(&parts)
}

/// The type of one part, or of two with a slash between.
fn joined(parts: &[Part]) -> TypeString {
    let adjoint = |string: &TypeString, by: i8| -> TypeString {
        string.iter().rev().map(|(a, z)| (*a, z + by)).collect()
    };
    match parts {
        [Part::Type(one)] => one.clone(),
        [Part::Type(a), Part::Sign(b'/'), Part::Type(b)] => [a.clone(), adjoint(b, -1)].concat(),
        [Part::Type(b), Part::Sign(b'\\'), Part::Type(a)] => [adjoint(b, 1), a.clone()].concat(),
        _ => panic!("the text is no type"),
    }
}

/// a ≤ b: b is found by walking up from a.
fn at_or_below(book: &Book, a: u8, b: u8) -> bool {
    let mut above = vec![a];
    let mut walked = 0;
    while walked < above.len() {
        for (lower, upper) in &book.pairs {
            if *lower == above[walked] && !above.contains(upper) {
                above.push(*upper);
            }
        }
        walked += 1;
    }
    above.contains(&b)
}

fn could_contract(book: &Book, (a, z): (u8, i8), (b, y): (u8, i8)) -> bool {
    let even = z.rem_euclid(2) == 0;
    y == z + 1 && ((even && at_or_below(book, a, b)) || (!even && at_or_below(book, b, a)))
}

/// Whether a partner list, with exactly one position its own partner, is a
/// linking of the string, for some target or for none.
fn is_linking(book: &Book, string: &TypeString, partners: &[usize]) -> bool {
    (0..string.len()).all(|i| {
        let p = partners[i];
        if p == i {
            (0..i).all(|earlier| partners[earlier] <= i)
        } else {
            let (first, last) = (i.min(p), i.max(p));
            let inside = |k: usize| {
                let q = partners[k];
                first < q && q < last && q != k
            };
            could_contract(book, string[first], string[last]) && (first + 1..last).all(inside)
        }
    })
}

/// Whether what a linking leaves is plain, and at or below the target.
fn leaves(book: &Book, string: &TypeString, partners: &[usize], target: u8) -> bool {
    (0..string.len())
        .filter(|i| partners[*i] == *i)
        .all(|i| string[i].1 == 0 && at_or_below(book, string[i].0, target))
}

/// All lists in which partners have each other and one position has itself,
/// the smallest at the first difference first.
fn partner_lists(partners: &mut Vec<usize>, own: bool, found: &mut Vec<Vec<usize>>) {
    const NONE: usize = usize::MAX;
    let Some(i) = partners.iter().position(|p| *p == NONE) else {
        if own {
            found.push(partners.clone());
        }
        return;
    };
    for p in i..partners.len() {
        if partners[p] == NONE && !(p == i && own) {
            partners[i] = p;
            partners[p] = i;
            partner_lists(partners, own || p == i, found);
            partners[p] = NONE;
            partners[i] = NONE;
        }
    }
}

/// All lists of entry numbers for the words, the smallest at the first
/// difference first.
fn choices(book: &Book, words: &[&[u8]]) -> Vec<Vec<usize>> {
    let mut lists = vec![vec![]];
    for word in words {
        let mut longer = vec![];
        for list in &lists {
            for number in 0..book.entries.len() {
                if same_word(&book.entries[number].0, word) {
                    longer.push([list.clone(), vec![number]].concat());
                }
            }
        }
        lists = longer;
    }
    lists
}

/// Whether two words are the same: at every place one byte, or a capital and
/// its small letter.
fn same_word(a: &[u8], b: &[u8]) -> bool {
    const CAPITALS: &[u8; 26] = b"ABCDEFGHIJKLMNOPQRSTUVWXYZ";
    const SMALL: &[u8; 26] = b"abcdefghijklmnopqrstuvwxyz";
    let spells =
        |capital: u8, small: u8| (0..26).any(|k| [CAPITALS[k], SMALL[k]] == [capital, small]);
    let alike = |(x, y): (&u8, &u8)| x == y || spells(*x, *y) || spells(*y, *x);
    a.len() == b.len() && a.iter().zip(b).all(alike)
}

/// Whether the written values are some reading of the line.
fn is_reading(book: &[u8], line: &[u8], values: &[u16]) -> bool {
    let book = take_apart(book);
    let words = words_of(line);
    let n = words.len();
    let target = book.targets[values[0] as usize];
    let (numbers, partners) = (&values[2..2 + n], &values[3 + n..]);
    let entries: Vec<&(Vec<u8>, TypeString)> = numbers
        .iter()
        .map(|number| &book.entries[*number as usize])
        .collect();
    let string: TypeString = entries.iter().flat_map(|entry| entry.1.clone()).collect();
    let partners: Vec<usize> = partners.iter().map(|p| *p as usize - 1).collect();
    let own = (0..partners.len()).filter(|i| partners[*i] == *i).count();
    values[1] as usize == n
        && values[2 + n] as usize == string.len()
        && entries
            .iter()
            .zip(&words)
            .all(|(entry, word)| same_word(&entry.0, word))
        && partners.len() == string.len()
        && (0..partners.len()).all(|i| partners[partners[i]] == i)
        && own == 1
        && is_linking(&book, &string, &partners)
        && leaves(&book, &string, &partners, target)
}

fn words_of(line: &[u8]) -> Vec<&[u8]> {
    line.split(|byte| *byte == 32)
        .filter(|word| !word.is_empty())
        .collect()
}

/// The offset of the first word without an entry.
fn unknown_word(book: &[u8], line: &[u8]) -> Option<u64> {
    let book = take_apart(book);
    let known = |word: &[u8]| book.entries.iter().any(|entry| same_word(&entry.0, word));
    let mut offset = 0;
    for word in line.split(|byte| *byte == 32) {
        if !word.is_empty() && !known(word) {
            return Some(offset);
        }
        offset += word.len() as u64 + 1;
    }
    None
}

/// The offset of the ninth target.
fn ninth_target(book: &[u8]) -> Option<u64> {
    let mut offset = 0;
    let mut offsets = vec![];
    while offset < book.len() {
        if book[offset + 2] == 4 {
            offsets.push(offset as u64);
        }
        offset += 4 + body_length(&book[offset..]);
    }
    offsets.get(8).copied()
}

/// A choice's entry numbers and string, with a partner list that is a linking.
struct Linked {
    choice: Vec<usize>,
    string: TypeString,
    partners: Vec<usize>,
}

/// All linkings of all choices in order, or nothing where there is too much to
/// try.
fn all_linkings(book: &Book, words: &[&[u8]]) -> Option<Vec<Linked>> {
    let of_word = |word: &&[u8]| {
        let entries = book.entries.iter();
        entries.filter(|entry| same_word(&entry.0, word)).count()
    };
    if words.iter().map(of_word).product::<usize>() > 300 {
        return None;
    }
    let mut linkings = vec![];
    for choice in choices(book, words) {
        let string: TypeString = choice
            .iter()
            .flat_map(|number| book.entries[*number].1.clone())
            .collect();
        if string.len() > 9 {
            return None;
        }
        let mut lists = vec![];
        partner_lists(&mut vec![usize::MAX; string.len()], false, &mut lists);
        lists.retain(|partners| is_linking(book, &string, partners));
        linkings.extend(lists.into_iter().map(|partners| Linked {
            choice: choice.clone(),
            string: string.clone(),
            partners,
        }));
    }
    Some(linkings)
}

/// The answers of all readings in order, or nothing where there is too much to try.
fn all_readings(book: &[u8], line: &[u8]) -> Option<Vec<Vec<u16>>> {
    let book = take_apart(book);
    let linkings = all_linkings(&book, &words_of(line))?;
    let mut readings = vec![];
    for (number, target) in book.targets.iter().enumerate() {
        for linked in &linkings {
            if leaves(&book, &linked.string, &linked.partners, *target) {
                let mut answer = vec![number, linked.choice.len()];
                answer.extend(&linked.choice);
                answer.push(linked.partners.len());
                answer.extend(linked.partners.iter().map(|p| p + 1));
                readings.push(answer.iter().map(|value| *value as u16).collect());
            }
        }
    }
    Some(readings)
}

/// What a line with these readings gets when so many values are lent: the
/// answer or a refusal.
fn ordinary(
    book: &[u8],
    line: &[u8],
    readings: &[Vec<u16>],
    lent: usize,
) -> Result<Vec<u16>, Refusal> {
    if let Some(offset) = ninth_target(book) {
        return Err((8, offset));
    }
    if let Some(offset) = unknown_word(book, line) {
        return Err((13, offset));
    }
    match readings.first() {
        None => Err((15, 0)),
        Some(first) if first.len() > lent => Err((16, first.len() as u64)),
        Some(first) => Ok(first.clone()),
    }
}

/// A line of these words, with any spaces between them and at the ends.
fn line_of(random: &mut Random, words: &[&[u8]]) -> Vec<u8> {
    let mut line = vec![b' '; random.below(3)];
    for word in words {
        line.extend(*word);
        line.extend(vec![b' '; 1 + random.below(3)]);
    }
    // Some space stands at the end, if any byte does.
    line.truncate(line.len().saturating_sub(random.below(2)));
    line
}

fn without_word(random: &mut Random, line: &[u8], place: usize) -> Vec<u8> {
    let mut words = words_of(line);
    words.remove(place);
    line_of(random, &words)
}

/// The line with one more word of the book, if it has any, at some place.
fn with_word(random: &mut Random, book: &[u8], line: &[u8]) -> Vec<u8> {
    let book = take_apart(book);
    let mut words = words_of(line);
    if !book.entries.is_empty() {
        let at = random.below(words.len() + 1);
        words.insert(at, &random.pick(&book.entries).0);
    }
    line_of(random, &words)
}

/// For each word of a line that is not too much to try: the number of the first
/// target for which the line without that word has a reading.
fn targets_without(random: &mut Random, book: &[u8], line: &[u8]) -> Vec<Option<u16>> {
    let places = 0..words_of(line).len();
    let target = |place: usize| {
        let rest = without_word(random, line, place);
        let readings = all_readings(book, &rest).expect("a word less is less to try");
        readings.first().map(|answer| answer[0])
    };
    places.map(target).collect()
}

#[test]
fn partner_lists_come_in_order() {
    let mut lists = vec![];
    partner_lists(&mut vec![usize::MAX; 5], false, &mut lists);
    assert_eq!(lists.len(), 5 * 3);
    assert!(lists.windows(2).all(|two| two[0] < two[1]));
}

#[test]
fn whatever_is_read_is_a_reading() {
    let mut read = 0;
    for number in 0..20_000 {
        let case = cases::any(&mut Random::for_case(8, number));
        let mut answer = [0; cases::AMPLE];
        if let Ok(values) = read_line(&case.book, &case.line, &mut answer) {
            let values = &answer[..values as usize];
            assert!(is_reading(&case.book, &case.line, values), "case {number}");
            read += 1;
        }
    }
    assert!(read > 5_000);
}

#[test]
fn the_first_of_all_readings_is_read() {
    let (mut tried, mut read, mut several) = (0, 0, 0);
    let (mut later, mut against) = (0, 0);
    let mut number = 0;
    while tried < 6_000 {
        number += 1;
        let random = &mut Random::for_case(7, number);
        let case = match number % 3 {
            0 => cases::spellings(random),
            _ => cases::ambiguous(random),
        };
        let Some(readings) = all_readings(&case.book, &case.line) else {
            continue;
        };
        let mut answer = [0; cases::AMPLE];
        let outcome = read_line(&case.book, &case.line, &mut answer);
        tried += 1;
        if let Some(offset) = ninth_target(&case.book) {
            assert_eq!(outcome, Err((8, offset)), "case {number}");
            continue;
        }
        let unknown = unknown_word(&case.book, &case.line);
        match (unknown, readings.first()) {
            (Some(offset), _) => assert_eq!(outcome, Err((13, offset)), "case {number}"),
            (None, Some(first)) => {
                assert_eq!(outcome, Ok(first.len() as u64), "case {number}");
                assert_eq!(answer[..first.len()], first[..], "case {number}");
                let entries = 2..2 + first[1] as usize;
                let smaller = |other: &Vec<u16>| other[entries.clone()] < first[entries.clone()];
                later += usize::from(first[0] > 0);
                against += usize::from(readings.iter().any(smaller));
            }
            (None, None) => assert_eq!(outcome, Err((15, 0)), "case {number}"),
        }
        assert!(readings.is_sorted(), "case {number}");
        read += usize::from(!readings.is_empty());
        several += usize::from(readings.len() > 1);
    }
    println!("{tried} tried of {number} made, {read} read, {several} with several readings");
    println!("{later} read for a later target, {against} against smaller entries of a later one");
    assert!(read > 1_500 && several > 500 && later > 200 && against > 100);
}

#[test]
fn words_in_the_way_are_those_without_which_a_reading_is_found() {
    let (mut tried, mut read, mut other) = (0, 0, 0);
    let (mut none, mut one, mut several) = (0, 0, 0);
    let (mut later, mut different) = (0, 0);
    let mut number = 0;
    while tried < 10_000 {
        number += 1;
        let random = &mut Random::for_case(14, number);
        let mut case = match number % 3 {
            0 => cases::spellings(random),
            _ => cases::ambiguous(random),
        };
        // A line that is read is often spoilt by a word more.
        if number % 4 != 0 {
            case.line = with_word(random, &case.book, &case.line);
        }
        let Some(readings) = all_readings(&case.book, &case.line) else {
            continue;
        };
        tried += 1;
        let mut answer = vec![0xbeef; case.lent];
        let mut expected = answer.clone();
        let outcome = words_in_the_way(&case.book, &case.line, &mut answer);
        match ordinary(&case.book, &case.line, &readings, case.lent) {
            Ok(first) => {
                assert_eq!(outcome, Ok(first.len() as u64), "case {number}");
                expected[..first.len()].copy_from_slice(&first);
                read += 1;
            }
            Err((15, 0)) => {
                let targets = targets_without(random, &case.book, &case.line);
                let bit = |k: usize| u32::from(targets[k].is_some()) << k;
                let bits: u32 = (0..targets.len()).map(bit).sum();
                assert_eq!(outcome, Err(((15, 0), Some(bits))), "case {number}");
                // A line of one word or none can have no bit: it isn't counted.
                none += usize::from(bits == 0 && targets.len() > 1);
                one += usize::from(bits.count_ones() == 1);
                several += usize::from(bits.count_ones() > 1);
                let mut taken: Vec<u16> = targets.into_iter().flatten().collect();
                later += usize::from(taken.iter().any(|target| *target > 0));
                taken.dedup();
                different += usize::from(taken.len() > 1);
            }
            Err(refusal) => {
                assert_eq!(outcome, Err((refusal, None)), "case {number}");
                other += 1;
            }
        }
        assert_eq!(answer, expected, "case {number}");
    }
    println!("{tried} tried of {number} made, {read} read, {other} refused otherwise");
    println!("15 with no bit {none}, with one {one}, with several {several}");
    println!("a bit for a later target {later}, bits for different targets {different}");
    assert!(none > 1_200 && one > 300 && several > 350 && read > 1_500 && other > 1_800);
    assert!(later > 180 && different > 12);
}
