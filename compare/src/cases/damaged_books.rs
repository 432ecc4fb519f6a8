//! Books with one fault or several, so that it matters which one decides.

use super::ambiguous::Small;
use super::damaged_lines::damage_bytes as damage_line;
use super::papers::book_and_words;
use super::{joined, lend, slashes, Case};
use crate::books::{entry, record, Records};
use crate::random::Random;

/// A good book and a line for it.
fn good(random: &mut Random) -> (Records, Vec<u8>) {
    let (records, words) = match random.chance(1, 4) {
        true => book_and_words(random),
        false => {
            let small = Small::new(random);
            (small.records(random), small.words)
        }
    };
    (records, joined(random, &words))
}

/// Bytes of any value, or often of one that means something.
fn byte(random: &mut Random) -> u8 {
    match random.below(4) {
        0 => random.below(256) as u8,
        1 => random.below(8) as u8,
        2 => *random.pick(&[247, 248, 255, 8, 9, 128, 64, 63]),
        _ => *random.pick(b"az09AZ ~`{/:\\()\x7f\x20\x21"),
    }
}

fn bytes(random: &mut Random, most: usize) -> Vec<u8> {
    let length = random.below(most + 1);
    (0..length).map(|_| byte(random)).collect()
}

/// A name, often with a fault.
fn name(random: &mut Random) -> Vec<u8> {
    let mut name: Vec<u8> = match random.below(8) {
        0 => b"s".to_vec(),
        1 => b"np".to_vec(),
        2 => vec![b'z'; 14 + random.below(3)],
        3 => b"newone".to_vec(),
        4 => vec![],
        5 => random.pick(&["S", "Np", "nP"]).as_bytes().to_vec(),
        6 => random.pick(&["Newone", "neWone", "X1"]).as_bytes().to_vec(),
        _ => bytes(random, 4),
    };
    if random.chance(1, 3) {
        let at = random.below(name.len() + 1);
        name.insert(at, byte(random));
    }
    name
}

/// A type number: mostly a declared one.
fn number(random: &mut Random) -> u8 {
    match random.chance(3, 4) {
        true => 0,
        false => byte(random),
    }
}

fn exponent(random: &mut Random) -> i8 {
    match random.chance(3, 4) {
        true => random.between(-8, 8) as i8,
        false => random.between(-128, 127) as i8,
    }
}

/// An entry, often with a fault in its word, its length, its type numbers or
/// its exponents.
fn faulty_entry(random: &mut Random) -> Vec<u8> {
    let length = *random.pick(&[0, 1, 1, 2, 5, 31, 32]);
    let mut word = vec![b'w'; length];
    if random.chance(1, 5) && length > 0 {
        word[random.below(length)] = byte(random);
    }
    let count = *random.pick(&[0, 1, 2, 3, 12, 13]);
    let simple_types: Vec<(u8, i8)> = (0..count)
        .map(|_| (number(random), exponent(random)))
        .collect();
    let mut made = entry(&word, &simple_types);
    match random.below(8) {
        0 => made.push(byte(random)),
        1 => drop(made.pop()),
        2 => made[4] = byte(random),
        _ => return made,
    }
    record(3, &made[4..])
}

/// A target, often with a fault in its length or its type number.
fn faulty_target(random: &mut Random) -> Vec<u8> {
    match random.below(4) {
        0 => record(4, &bytes(random, 3)),
        _ => record(4, &[number(random)]),
    }
}

/// A record that is often not in order.
fn faulty_record(random: &mut Random) -> Vec<u8> {
    match random.below(12) {
        0..=2 => faulty_entry(random),
        3 | 4 => record(1, &name(random)),
        5 => record(2, &[number(random), number(random)]),
        6 => faulty_target(random),
        7 | 8 => slashes::faulty_entry(random, &["s", "n", "o", "np"]),
        9 => {
            let kind = random.below(6) as u16;
            record(kind, &bytes(random, 5))
        }
        10 => {
            let kind = *random.pick(&[0, 6, 7, 8, 255, 256, 257, 261, 513, 65_535]);
            record(kind, &bytes(random, 5))
        }
        _ => {
            let mut cut_short = record(random.below(7) as u16, &bytes(random, 5));
            cut_short[0] = cut_short[0].wrapping_add(byte(random));
            cut_short
        }
    }
}

/// A change to the list of records.
fn damage_records(random: &mut Random, records: &mut Records) {
    let list = &mut records.list;
    let at = random.below(list.len() + 1);
    match random.below(8) {
        0..=3 => list.insert(at, faulty_record(random)),
        4 => list.push(faulty_record(random)),
        5 if at < list.len() => drop(list.remove(at)),
        6 if at < list.len() => list.swap(at, at / 2),
        7 => list.retain(|record| record[2] != 4),
        _ => {}
    }
}

/// A change to the bytes.
fn damage_bytes(random: &mut Random, book: &mut Vec<u8>) {
    let at = random.below(book.len().max(1));
    match random.below(6) {
        0 => book.truncate(at),
        1 => book.truncate(book.len().saturating_sub(1 + random.below(4))),
        2 if !book.is_empty() => book[at] ^= 1 << random.below(8),
        3 if !book.is_empty() => book[at] = byte(random),
        4 => book.insert(at, byte(random)),
        _ => book.extend(bytes(random, 4)),
    }
}

/// As many basic types as a book may have, and perhaps more records of them.
fn add_many_types(random: &mut Random, records: &mut Records) {
    let present = records.list.iter().filter(|record| record[2] == 1).count();
    for number in present..64 {
        records.basic_type(format!("many{number}").as_bytes());
    }
    for _ in 0..random.below(3) {
        match random.chance(1, 2) {
            true => records.basic_type(b"many63"),
            false => records.basic_type(&name(random)),
        }
    }
}

/// As many targets as a book may have, and perhaps more records of them.
fn add_many_targets(random: &mut Random, records: &mut Records) {
    let present = records.list.iter().filter(|record| record[2] == 4).count();
    for _ in present..8 {
        records.target(0);
    }
    for _ in 0..random.below(4) {
        records.list.push(faulty_target(random));
    }
}

pub fn damaged_books(random: &mut Random) -> Case {
    let (mut records, mut line) = good(random);
    if random.chance(1, 4) {
        damage_line(random, &mut line);
    }
    if random.chance(1, 30) {
        add_many_types(random, &mut records);
    }
    if random.chance(1, 12) {
        add_many_targets(random, &mut records);
    }
    for _ in 0..random.below(4) {
        damage_records(random, &mut records);
    }
    let mut book = records.bytes();
    if random.chance(1, 3) {
        for _ in 0..1 + random.below(2) {
            damage_bytes(random, &mut book);
        }
    }
    lend(random, "damaged book", book, line)
}
