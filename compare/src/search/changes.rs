//! Small changes of a candidate, picked at random.
use super::candidate::{Candidate, Entry};
use crate::random::Random;
use crate::twin::figures::limits::{MAX_ENTRIES, MAX_ENTRY_SIMPLES, MAX_TARGETS};

type Change = fn(&mut Candidate, &mut Random);

/// What may be changed, some of it more often.
const CHANGES: [Change; 19] = [
    change_exponent,
    change_exponent,
    change_exponent,
    swap_simples,
    move_simple,
    move_simple,
    add_simple,
    drop_simple,
    swap_entries,
    copy_entry,
    split_entry,
    drop_entry,
    add_entry,
    copy_word,
    part_word,
    change_place,
    swap_places,
    change_strangers,
    change_targets,
];

/// How many changes are made at once, at most.
const AT_ONCE: usize = 3;

/// How many places a word of their own is given to, at most.
const PARTED: usize = 6;

/// The candidate with some changes.
pub fn changed(candidate: &Candidate, random: &mut Random) -> Candidate {
    let mut other = candidate.clone();
    for _ in 0..1 + random.below(AT_ONCE) {
        random.pick(&CHANGES)(&mut other, random);
    }
    other.drop_unused();
    other
}

/// The entries of a word of the line.
fn any_entries<'a>(candidate: &'a mut Candidate, random: &mut Random) -> &'a mut Vec<Entry> {
    let word = *random.pick(&candidate.line);
    &mut candidate.words[word]
}

/// An entry of a word of the line.
fn any_entry<'a>(candidate: &'a mut Candidate, random: &mut Random) -> &'a mut Entry {
    let entries = any_entries(candidate, random);
    let place = random.below(entries.len());
    &mut entries[place]
}

/// An exponent to put in anew.
fn any_exponent(random: &mut Random) -> i8 {
    random.between(-2, 2) as i8
}

/// Puts a simple type into an entry that has room.
fn put_simple(entry: &mut Entry, exponent: i8, random: &mut Random) {
    if entry.len() < MAX_ENTRY_SIMPLES {
        entry.insert(random.below(entry.len() + 1), exponent);
    }
}

/// Takes a simple type out of an entry that has one.
fn take_simple(entry: &mut Entry, random: &mut Random) -> Option<i8> {
    match entry.len() {
        0 => None,
        length => Some(entry.remove(random.below(length))),
    }
}

fn change_exponent(candidate: &mut Candidate, random: &mut Random) {
    let step = *random.pick(&[-2, -1, -1, 1, 1, 2]);
    let entry = any_entry(candidate, random);
    if !entry.is_empty() {
        let place = random.below(entry.len());
        entry[place] = (entry[place] + step).clamp(-8, 8);
    }
}

fn swap_simples(candidate: &mut Candidate, random: &mut Random) {
    let entry = any_entry(candidate, random);
    if !entry.is_empty() {
        let (one, other) = (random.below(entry.len()), random.below(entry.len()));
        entry.swap(one, other);
    }
}

/// Moves a simple type to another entry.
fn move_simple(candidate: &mut Candidate, random: &mut Random) {
    if let Some(exponent) = take_simple(any_entry(candidate, random), random) {
        put_simple(any_entry(candidate, random), exponent, random);
    }
}

fn add_simple(candidate: &mut Candidate, random: &mut Random) {
    let exponent = any_exponent(random);
    put_simple(any_entry(candidate, random), exponent, random);
}

fn drop_simple(candidate: &mut Candidate, random: &mut Random) {
    take_simple(any_entry(candidate, random), random);
}

fn swap_entries(candidate: &mut Candidate, random: &mut Random) {
    let entries = any_entries(candidate, random);
    let (one, other) = (random.below(entries.len()), random.below(entries.len()));
    entries.swap(one, other);
}

/// Puts a copy of an entry in the place of another.
fn copy_entry(candidate: &mut Candidate, random: &mut Random) {
    let entry = any_entry(candidate, random).clone();
    *any_entry(candidate, random) = entry;
}

/// Cuts an entry in two.
fn split_entry(candidate: &mut Candidate, random: &mut Random) {
    let entries = any_entries(candidate, random);
    let place = random.below(entries.len());
    let cut = random.below(entries[place].len() + 1);
    let rest = entries[place].split_off(cut);
    entries.insert(place + random.below(2), rest);
}

fn drop_entry(candidate: &mut Candidate, random: &mut Random) {
    let entries = any_entries(candidate, random);
    if entries.len() > 1 {
        entries.remove(random.below(entries.len()));
    }
}

/// Adds an entry of one simple type, or an empty one.
fn add_entry(candidate: &mut Candidate, random: &mut Random) {
    let mut entry = vec![any_exponent(random)];
    entry.truncate(random.below(3));
    let entries = any_entries(candidate, random);
    entries.insert(random.below(entries.len() + 1), entry);
}

/// Gives a word the entries of another.
fn copy_word(candidate: &mut Candidate, random: &mut Random) {
    let entries = any_entries(candidate, random).clone();
    *any_entries(candidate, random) = entries;
}

/// Gives some places of a word, near each other, a word of their own with the same entries.
fn part_word(candidate: &mut Candidate, random: &mut Random) {
    let place = random.below(candidate.line.len());
    let word = candidate.line[place];
    let own = candidate.words.len();
    candidate.words.push(candidate.words[word].clone());
    let near = 1 + random.below(PARTED);
    for other in candidate.line[place..].iter_mut().take(near) {
        if *other == word {
            *other = own;
        }
    }
}

/// Puts another word of the line in a place.
fn change_place(candidate: &mut Candidate, random: &mut Random) {
    let word = *random.pick(&candidate.line);
    let place = random.below(candidate.line.len());
    candidate.line[place] = word;
}

fn swap_places(candidate: &mut Candidate, random: &mut Random) {
    let places = candidate.line.len();
    candidate
        .line
        .swap(random.below(places), random.below(places));
}

/// Gives each word a key of its own, or all words one, with another number of entries of a stranger before theirs.
fn change_strangers(candidate: &mut Candidate, random: &mut Random) {
    let some = random.below(MAX_ENTRIES);
    candidate.strangers = *random.pick(&[None, Some(0), Some(some), Some(MAX_ENTRIES)]);
}

fn change_targets(candidate: &mut Candidate, random: &mut Random) {
    candidate.targets = 1 + random.below(MAX_TARGETS);
}
