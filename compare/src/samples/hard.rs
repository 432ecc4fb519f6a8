//! Lines at the bounds, where much contracts with much: 24 words and 504 to 512 simple types. Some stand again with eight targets.
use super::{Growth, Sample, Simple};
use crate::books::Records;
use crate::random::Random;

/// The exponents of an entry's simple types.
pub type Exponents = Vec<i8>;

/// How many simple types the entries of word k have together: 64 for three words, 512 for 24.
fn odd_share(k: usize) -> usize {
    if k % 3 == 2 {
        22
    } else {
        21
    }
}

/// The same total with even shares.
fn even_share(k: usize) -> usize {
    if k % 3 == 2 {
        20
    } else {
        22
    }
}

/// So many exponents of a pattern over and over.
fn cycle(pattern: &[i8], length: usize) -> Exponents {
    pattern.iter().copied().cycle().take(length).collect()
}

fn random_exponents(random: &mut Random, exponents: &[i8], length: usize) -> Exponents {
    (0..length).map(|_| *random.pick(exponents)).collect()
}

/// Exponents of an odd number of simple types that link at random, with the unlinked one first; the earlier end of a link has one of
/// the given exponents.
fn linked(random: &mut Random, exponents: &[i8], length: usize) -> Exponents {
    let mut line = vec![0];
    let mut open = Vec::new();
    while line.len() < length {
        let left = length - line.len();
        if open.len() == left || !open.is_empty() && random.below(2) == 0 {
            line.extend(open.pop().map(|z: i8| z + 1));
        } else {
            let z = *random.pick(exponents);
            open.push(z);
            line.push(z);
        }
    }
    line
}

/// How the basic types of a hard line are spread: how many there are, all equal by a cycle of the order.
#[derive(Clone, Copy)]
pub enum Bases {
    One,
    Cycle(usize),
}

/// The line of words w0, w1 and so on with these entries.
fn sample(name: &str, words: &[Vec<Exponents>], bases: Bases) -> Sample {
    let (book, line) = records(words, bases, |k| format!("w{k}"));
    Sample {
        name: name.to_string(),
        book: book.bytes(),
        line,
    }
}

/// The targets before a hard line's own, seven of them: equal to it, or of types that nothing else in the book has.
#[derive(Clone, Copy)]
enum Others {
    Equal,
    Strange,
}

/// The line of one basic type with eight targets, of which its own is the last.
fn eight_targets(name: &str, words: &[Vec<Exponents>], others: Others) -> Sample {
    let (mut book, line) = records(words, Bases::One, |k| format!("w{k}"));
    let mut before = Records::default();
    for k in 1..8 {
        match others {
            Others::Equal => before.target(0),
            Others::Strange => {
                before.basic_type(format!("t{k}").as_bytes());
                before.target(k);
            }
        }
    }
    let own = book.list.iter().position(|record| record[2] == 4);
    let own = own.expect("a target");
    book.list.splice(own..own, before.list);
    Sample {
        name: name.to_string(),
        book: book.bytes(),
        line,
    }
}

/// The book and the line of words with these entries and names.
pub fn records(
    words: &[Vec<Exponents>],
    bases: Bases,
    name: impl Fn(usize) -> String,
) -> (Records, Vec<u8>) {
    let mut random = Random::new(3);
    let mut book = Records::default();
    let types = match bases {
        Bases::One => 1,
        Bases::Cycle(types) => types,
    };
    for k in 0..types {
        book.basic_type(format!("t{k}").as_bytes());
    }
    for k in 0..types {
        book.pair(k as u8, ((k + 1) % types) as u8);
    }
    book.target(0);
    let mut line = Vec::new();
    for (k, entries) in words.iter().enumerate() {
        let word = name(k);
        for exponents in entries {
            let simples: Vec<Simple> = exponents
                .iter()
                .map(|&exponent| (random.below(types) as u8, exponent))
                .collect();
            book.entry(word.as_bytes(), &simples);
        }
        line.push(word);
    }
    (book, line.join(" ").into_bytes())
}

/// Each word an entry of 12 and one of 9 of a pattern, some one of 1: read where 12 of the pattern vanish and 9 leave a plain one.
fn long_entries(count: usize, twelve: &[i8], nine: &[i8]) -> Vec<Vec<Exponents>> {
    (0..count)
        .map(|k| {
            let mut entries = vec![cycle(twelve, 12), cycle(nine, 9)];
            if odd_share(k) == 22 {
                entries.push(vec![0]);
            }
            entries
        })
        .collect()
}

/// Each word two entries of an even length: with an even number of simple types in all there is no reading.
fn even_entries(
    count: usize,
    mut exponents: impl FnMut(usize) -> Exponents,
) -> Vec<Vec<Exponents>> {
    (0..count)
        .map(|k| vec![exponents(12), exponents(even_share(k) - 12)])
        .collect()
}

/// A line that links at random, cut into entries of 12, each behind another entry at random.
fn hidden_entries(
    count: usize,
    random: &mut Random,
    openers: &[i8],
    all: &[i8],
) -> Vec<Vec<Exponents>> {
    let line = linked(random, openers, 12 * count - 1);
    line.chunks(12)
        .enumerate()
        .map(|(k, chunk)| {
            let rest = odd_share(k) - chunk.len();
            let mut entries = vec![random_exponents(random, all, 9)];
            if rest > 9 {
                entries.push(random_exponents(random, all, rest - 9));
            }
            entries.push(chunk.to_vec());
            entries
        })
        .collect()
}

/// The first half of the words opens, the second closes.
fn deep_entries() -> Vec<Vec<Exponents>> {
    (0..24)
        .map(|k| {
            let exponent = i8::from(k >= 12);
            let mut entries = vec![vec![exponent; 12], vec![exponent; 9]];
            if odd_share(k) == 22 {
                entries.push(vec![exponent]);
            }
            entries
        })
        .collect()
}

/// Each word entries of 3 and of 2, and some one of 1.
fn short_entries() -> Vec<Vec<Exponents>> {
    (0..24)
        .map(|k| {
            let mut entries: Vec<Exponents> =
                [[0, 0, 0], [0, 0, 1], [0, 1, 0], [0, 1, 1], [1, 0, 1]]
                    .iter()
                    .map(|three| three.to_vec())
                    .collect();
            entries.extend([vec![0, 0], vec![0, 1], vec![1, 1]]);
            if odd_share(k) == 22 {
                entries.push(vec![0]);
            }
            entries
        })
        .collect()
}

/// Each word many entries of one simple type, and an empty one behind them.
fn single_entries(with_empty: bool) -> Vec<Vec<Exponents>> {
    (0..24)
        .map(|k| {
            let mut entries: Vec<Exponents> =
                (0..odd_share(k)).map(|i| vec![(i % 2) as i8]).collect();
            if with_empty {
                entries.push(Vec::new());
            }
            entries
        })
        .collect()
}

/// Each word nine entries that link to nothing, then one of 12, perhaps an empty one, and some one of 1.
pub fn late_entries(with_empty: bool) -> Vec<Vec<Exponents>> {
    (0..24)
        .map(|k| {
            let mut entries = vec![vec![5]; 9];
            entries.push(cycle(&[0, 1], 12));
            if with_empty {
                entries.push(Vec::new());
            }
            if odd_share(k) == 22 {
                entries.push(vec![0]);
            }
            entries
        })
        .collect()
}

/// Each word an entry of 12 that links to the words beside it, an empty one, and nine or ten of 1 that do not fit; the last word has
/// what closes the line behind 21 that do not.
pub fn woven_entries(count: usize) -> Vec<Vec<Exponents>> {
    let mut words: Vec<Vec<Exponents>> = (0..count)
        .map(|k| {
            let mut entries = vec![vec![-1]; 3];
            entries.push(cycle(&[0, 0, 1, -1], 12));
            entries.extend([
                vec![-1],
                vec![1],
                vec![],
                vec![-1],
                vec![-1],
                vec![1],
                vec![1],
            ]);
            if odd_share(k) == 22 {
                entries.push(vec![1]);
            }
            entries
        })
        .collect();
    words[count - 1] = vec![vec![1]; 21];
    words[count - 1].push(vec![0]);
    words
}

/// Each word an entry of 12, nine or ten of 1 and an empty one: a long choice, and much that vanishes beside it.
fn mixed_entries(count: usize) -> Vec<Vec<Exponents>> {
    (0..count)
        .map(|k| {
            let mut entries = vec![cycle(&[0, 0, 1, 1], 12)];
            entries.extend((12..odd_share(k)).map(|i| vec![(i % 2) as i8]));
            entries.push(Vec::new());
            entries
        })
        .collect()
}

/// Entries of 12 throughout, two for most words; where the line reads, the last word has one of 11 and one of 1.
fn twelves(reads: bool) -> Vec<Vec<Exponents>> {
    let mut words: Vec<Vec<Exponents>> = (0..24)
        .map(|k| vec![cycle(&[0, 1], 12); if k < 18 { 2 } else { 1 }])
        .collect();
    if reads {
        words[23] = vec![cycle(&[0, 1], 11), vec![0]];
    }
    words
}

/// Two words of which every entry contracts with every one of the other's, parted by 21 words that vanish where their number is even: the
/// chart is small with all of them, and large without any one of them.
fn parted_entries() -> Vec<Vec<Exponents>> {
    let mut words = vec![vec![vec![4], vec![5]]; 21];
    words.insert(0, vec![vec![0]; 234]);
    words.extend([vec![vec![1]; 234], vec![vec![0]]]);
    words
}

/// Lines of 24 words with 504 to 512 simple types in all, of which every two with fitting exponents could contract.
pub fn hard() -> Vec<Sample> {
    let mut random = Random::new(2);
    let signs = &[0, 1];
    let three = &[-1, 0, 1];
    let every: Vec<i8> = (-8..=8).collect();
    let alternate = long_entries(24, signs, signs);
    let blocks = long_entries(24, &[-1, 0, 0, 1], &[-1, 0, 0, 1, -1, 0, 0, 1, 0]);
    let nested = long_entries(
        24,
        &[0, 0, 0, 0, 0, 0, 1, 1, 1, 1, 1, 1],
        &[0, 0, 0, 0, 0, 1, 1, 1, 1],
    );
    let two_signs = hidden_entries(24, &mut random, &[0], signs);
    let three_signs = hidden_entries(24, &mut random, &[-1, 0], three);
    let every_sign = hidden_entries(24, &mut random, &every[..16], &every);
    let even_alternate = even_entries(24, |length| cycle(signs, length));
    let even_signs = even_entries(24, |length| random_exponents(&mut random, signs, length));
    let even_three = even_entries(24, |length| random_exponents(&mut random, three, length));
    let mixed = mixed_entries(24);
    let one = Bases::One;
    let all = Bases::Cycle(64);
    vec![
        sample("alternating 0 1, reads", &alternate, one),
        sample("alternating 0 1, 64 types, reads", &alternate, all),
        sample("alternating 0 1, none", &even_alternate, one),
        sample("blocks -1 0 0 1, reads", &blocks, one),
        sample("blocks -1 0 0 1, 64 types, reads", &blocks, all),
        sample("nested in each word, reads", &nested, one),
        sample("nested over the line, reads", &deep_entries(), one),
        sample("random 0 1, reads", &two_signs, one),
        sample("random 0 1, none", &even_signs, one),
        sample("random -1 0 1, reads", &three_signs, one),
        sample(
            "random -1 0 1, 5 types, reads",
            &three_signs,
            Bases::Cycle(5),
        ),
        sample("random -1 0 1, none", &even_three, one),
        sample("random -8 to 8, reads", &every_sign, one),
        sample("entries of 3 and 2, reads", &short_entries(), one),
        sample("entries of 1 and 0, reads", &single_entries(true), one),
        sample("entries of 1, none", &single_entries(false), one),
        sample("a late entry fits, reads", &late_entries(false), one),
        sample(
            "a late entry fits, one empty, reads",
            &late_entries(true),
            one,
        ),
        sample("woven from word to word, reads", &woven_entries(24), one),
        sample("entries of 12, reads", &twelves(true), one),
        sample("entries of 12, none", &twelves(false), one),
        sample("entries of 12, 1 and 0, reads", &mixed, one),
        sample("entries of 12, 1 and 0, 64 types, reads", &mixed, all),
        eight_targets(
            "alternating 0 1, last of eight targets, reads",
            &alternate,
            Others::Strange,
        ),
        eight_targets(
            "alternating 0 1, eight equal targets, reads",
            &alternate,
            Others::Equal,
        ),
        eight_targets(
            "alternating 0 1, eight targets, none",
            &even_alternate,
            Others::Strange,
        ),
        eight_targets(
            "alternating 0 1, eight equal targets, none",
            &even_alternate,
            Others::Equal,
        ),
        eight_targets(
            "entries of 12, 1 and 0, last of eight targets, reads",
            &mixed,
            Others::Strange,
        ),
        eight_targets(
            "entries of 12, 1 and 0, eight equal targets, reads",
            &mixed,
            Others::Equal,
        ),
        sample("parted by an odd number, none", &parted_entries(), one),
    ]
}

/// Kinds of hard lines for 64, 128, 256 and 512 simple types: 3, 6, 12 and 24 words.
pub fn growth() -> Vec<Growth> {
    type Kind = fn(usize) -> Vec<Vec<Exponents>>;
    let kinds: [(&str, Kind); 5] = [
        ("alternating 0 1, reads", |count| {
            long_entries(count, &[0, 1], &[0, 1])
        }),
        ("alternating 0 1, none", |count| {
            even_entries(count, |length| cycle(&[0, 1], length))
        }),
        ("random -1 0 1, reads", |count| {
            hidden_entries(count, &mut Random::new(4), &[-1, 0], &[-1, 0, 1])
        }),
        ("entries of 12, 1 and 0, reads", mixed_entries),
        ("woven from word to word, reads", woven_entries),
    ];
    kinds
        .iter()
        .map(|(name, kind)| Growth {
            name: name.to_string(),
            steps: [3, 6, 12, 24]
                .iter()
                .map(|&count| {
                    let words = kind(count);
                    let simples: usize = words.iter().flatten().map(Vec::len).sum();
                    let name = format!("{simples} simple types, {name}");
                    (simples, sample(&name, &words, Bases::One))
                })
                .collect(),
        })
        .collect()
}
