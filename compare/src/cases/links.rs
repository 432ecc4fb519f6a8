//! Books and lines that are nearly always read, with links between simple types of the same basic type and of different ones: pairs in
//! chains and in circles, few types or many, several targets, all exponents, and types that can be written with slashes.

use super::ambiguous::{cut, Small, TypeString, Types, WORDS};
use super::{joined, lend, Case};
use crate::random::Random;
use crate::slashes::{adjoint, Tree};

const MOST_ENTRY_TYPES: usize = 12;

/// One name is left over for the book's late basic type.
const MOST_TYPES: usize = 63;

/// What names begin with. With a number of two digits the last has 15 bytes.
const STEMS: [&str; 4] = ["t", "x1", "ward", "abcdefghijklm"];

/// Basic types, mostly few, with pairs that mostly make chains and circles.
fn types(random: &mut Random) -> Types {
    let most = *random.pick(&[6, 6, 6, MOST_TYPES]);
    let mut types = Types::new(random, most);
    if random.chance(3, 4) {
        types.pairs = chains(random, types.count);
    }
    types
}

/// Pairs that make a chain of the types, or several of one length; some chains are closed to circles.
fn chains(random: &mut Random, types: usize) -> Vec<(u8, u8)> {
    let mut order: Vec<u8> = (0..types as u8).collect();
    random.shuffle(&mut order);
    let mut pairs = vec![];
    for chain in order.chunks(1 + random.below(6)) {
        pairs.extend(chain.windows(2).map(|two| (two[0], two[1])));
        if random.chance(1, 3) {
            pairs.push((chain[chain.len() - 1], chain[0]));
        }
    }
    pairs
}

/// A string that has a linking, cut into words anywhere.
fn cut_anywhere(random: &mut Random, types: &Types) -> Vec<TypeString> {
    let most = *random.pick(&[3, 6, 6, 14]);
    let links = random.below(most + 1);
    let string = types.readable(random, links);
    let pieces = 1 + random.below(string.len().min(12));
    let pieces = cut(random, &string, pieces);
    pieces.iter().flat_map(short).collect()
}

/// A piece, in several if it is too long for an entry.
fn short(piece: &TypeString) -> Vec<TypeString> {
    match piece.is_empty() {
        true => vec![vec![]],
        false => piece.chunks(MOST_ENTRY_TYPES).map(<[_]>::to_vec).collect(),
    }
}

/// A type and one that takes it, T and T\x or x/T, then words before and behind, each of which takes what the others leave. All these
/// types can be written with slashes, if they are not too deep.
fn applied(random: &mut Random, types: &Types) -> Vec<TypeString> {
    let most = *random.pick(&[3, 6, MOST_ENTRY_TYPES - 1]);
    let names = 1 + random.below(most);
    let mut argument = Tree::random(random, types.count, names).simple_types();
    let mut words = vec![argument.clone()];
    for _ in 0..1 + random.below(5) {
        let left = vec![(types.below_target(random), 0)];
        let taken = taken(random, types, &argument);
        match random.chance(1, 2) {
            true => words.push([adjoint(&taken, 1), left.clone()].concat()),
            false => words.insert(0, [left.clone(), adjoint(&taken, -1)].concat()),
        }
        argument = left;
    }
    words
}

/// The type whose adjoints an argument is linked to: at even exponents with types at or above the argument's, at odd ones at or below.
fn taken(random: &mut Random, types: &Types, argument: &TypeString) -> TypeString {
    let mut other = |(basic, exponent): (u8, i8)| match exponent % 2 == 0 {
        true => (types.above(random, basic), exponent),
        false => (types.below(random, basic), exponent),
    };
    // Twice, so that some links hold only through three pairs or four.
    let twice = |simple: &(u8, i8)| {
        let once = other(*simple);
        other(once)
    };
    argument.iter().map(twice).collect()
}

/// A book in which each piece is an entry of a word, a line of these words, and sometimes more entries for them.
fn small(random: &mut Random, types: Types, pieces: Vec<TypeString>) -> Small {
    let mut pool = WORDS.map(|word| word.as_bytes().to_vec());
    random.shuffle(&mut pool);
    let vocabulary = &pool[..*random.pick(&[4, 8, 16])];
    let mut small = Small {
        types,
        entries: vec![],
        words: vec![],
    };
    for piece in pieces {
        let word = random.pick(vocabulary).clone();
        small.words.push(word.clone());
        small.entries.push((word, piece));
    }
    if random.chance(1, 2) {
        add_decoys(random, &mut small);
    }
    if random.chance(1, 2) {
        random.shuffle(&mut small.entries);
    }
    small
}

/// Puts in entries that may give the line other readings, before the others or behind them.
fn add_decoys(random: &mut Random, small: &mut Small) {
    for _ in 0..1 + random.below(4) {
        let word = random.pick(&small.words).clone();
        let decoy = small.types.shaped(random);
        let at = *random.pick(&[0, small.entries.len()]);
        small.entries.insert(at, (word, decoy));
    }
}

pub fn links(random: &mut Random) -> Case {
    let types = types(random);
    let pieces = match random.chance(1, 2) {
        true => cut_anywhere(random, &types),
        false => applied(random, &types),
    };
    let small = small(random, types, pieces);
    let stem = *random.pick(&STEMS);
    let names: Vec<String> = (0..=MOST_TYPES).map(|n| format!("{stem}{n}")).collect();
    let names: Vec<&str> = names.iter().map(String::as_str).collect();
    let book = small.records_with(random, &names).bytes();
    let line = joined(random, &small.words);
    lend(random, "links", book, line)
}

#[cfg(test)]
mod tests {
    use super::*;
    use crate::books::{kind_of, record_ranges};
    use crate::cases::reached::{assert_reached, note, Times};
    use crate::independent;

    const CASES: u64 = 20_000;

    fn listing(book: &[u8], line: &[u8]) -> String {
        let output = independent::reading(book, line);
        String::from_utf8(output).expect("the listing is ASCII")
    }

    /// The bodies of a book's records of a kind.
    fn bodies(book: &[u8], kind: u16) -> Vec<&[u8]> {
        let records = record_ranges(book).into_iter().map(|range| &book[range]);
        let of_kind = records.filter(|record| kind_of(record) == kind);
        of_kind.map(|record| &record[4..]).collect()
    }

    /// A type row: the basic type's number, the exponent, the partner and the letter.
    struct Row {
        basic: u8,
        exponent: i8,
        partner: usize,
        letter: String,
    }

    fn type_rows(book: &[u8], listing: &str) -> Vec<Row> {
        let names = bodies(book, 1);
        let number = |name: &str| names.iter().position(|other| *other == name.as_bytes());
        let row = |row: &str| match row.split(' ').collect::<Vec<_>>()[..] {
            [_, name, exponent, partner, letter] => Some(Row {
                basic: number(name).unwrap() as u8,
                exponent: exponent.parse().unwrap(),
                partner: partner.parse().unwrap(),
                letter: letter.to_string(),
            }),
            _ => None,
        };
        listing.lines().filter_map(row).collect()
    }

    /// Along how many pairs it goes from one type up to another, at least, if that can be done.
    fn steps(pairs: &[&[u8]], from: u8, to: u8) -> Option<usize> {
        let mut reached = vec![from];
        for steps in 0..=MOST_TYPES {
            if reached.contains(&to) {
                return Some(steps);
            }
            let up = pairs.iter().filter(|pair| reached.contains(&pair[0]));
            let up: Vec<u8> = up.map(|pair| pair[1]).collect();
            reached.extend(up);
        }
        None
    }

    /// What the links of a listing rest on, at which exponents, and which of the book's pairs there are for them.
    fn of_links(times: &mut Times, book: &[u8], rows: &[Row]) {
        let pairs = bodies(book, 2);
        for (place, one) in rows.iter().enumerate() {
            let other = &rows[one.partner - 1];
            if one.partner <= place + 1 {
                continue;
            }
            let what = format!("{} at {} and more", one.letter, one.exponent);
            note(times, what, true);
            if one.basic != other.basic {
                let (lower, upper) = match one.exponent % 2 == 0 {
                    true => (one.basic, other.basic),
                    false => (other.basic, one.basic),
                };
                let count = steps(&pairs, lower, upper).expect("the link holds");
                note(times, format!("t through {} pairs", count.min(4)), true);
                let both = steps(&pairs, upper, lower).is_some();
                note(times, "t, below each other", both);
            }
            note(times, "a type above 7", one.basic.max(other.basic) > 7);
            note(times, "a link over others", one.partner > place + 2);
        }
    }

    /// What the unlinked one rests on, and for which target.
    fn of_unlinked(times: &mut Times, listing: &str, rows: &[Row]) {
        let unlinked = (1..).zip(rows).find(|(place, row)| row.partner == *place);
        if let Some((_, row)) = unlinked {
            let first_row = listing.lines().next().unwrap();
            let target = first_row.rsplit(' ').next().unwrap();
            note(times, format!("{} for target {target}", row.letter), true);
        }
    }

    /// Both rows of a link have one letter, which is by their types.
    fn assert_letters(rows: &[Row], number: u64) {
        for (place, one) in rows.iter().enumerate() {
            let other = &rows[one.partner - 1];
            assert_eq!(one.letter, other.letter, "case {number}");
            if one.partner != place + 1 {
                let letter = match one.basic == other.basic {
                    true => "e",
                    false => "t",
                };
                assert_eq!(one.letter, letter, "case {number}");
            }
        }
    }

    #[test]
    fn links_of_every_kind_are_reached() {
        let mut times = Times::new();
        let mut unlinked = Times::new();
        let mut others = Times::new();
        let mut read = 0;
        for number in 0..CASES {
            let case = links(&mut Random::for_case(14, number));
            let listing = listing(&case.book, &case.line);
            let rows = type_rows(&case.book, &listing);
            assert_letters(&rows, number);
            of_links(&mut times, &case.book, &rows);
            of_unlinked(&mut unlinked, &listing, &rows);
            // Lines without a reading are those of books with a target too many.
            let yes = listing.starts_with("yes ");
            assert!(yes || listing.starts_with("no 8 "), "case {number}");
            read += u64::from(yes);
            let slashed = !bodies(&case.book, 5).is_empty();
            note(&mut others, "slashes", yes && slashed);
            let capital = case.line.iter().any(u8::is_ascii_uppercase);
            note(&mut others, "capitals", yes && capital);
            note(&mut others, "a ninth target", !yes);
        }
        // Two letters at the exponents from -8 to 7; t through one to four pairs or more; three more.
        assert_reached("links", &times, 2 * 16 + 4 + 3);
        assert_reached("unlinked", &unlinked, 2 * 8);
        assert_reached("lines", &others, 3);
        assert!(read > CASES * 9 / 10, "{read} read");
    }

    /// The listing is the same with the types of the book's entries as they were before some were written as texts.
    #[test]
    fn texts_change_no_listing() {
        let mut compared = 0;
        for number in 0..CASES / 4 {
            let case = links(&mut Random::for_case(15, number));
            if let Some(plain) = &case.plain {
                let listing = |book| listing(book, &case.line);
                assert_eq!(listing(&case.book), listing(plain), "case {number}");
                compared += 1;
            }
        }
        assert!(compared > CASES / 20, "{compared} compared");
    }
}
