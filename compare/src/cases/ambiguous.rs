//! Small books in which words have several entries, with lines that often have
//! a reading and often several.

use super::{joined, lend, targets, Case};
use crate::books::Records;
use crate::random::Random;

pub type TypeString = Vec<(u8, i8)>;

/// Short words, and longer ones of which some differ in one byte at the front, in the middle or at the end.
pub const WORDS: [&str; 16] = [
    "a",
    "b",
    "ab",
    "A",
    "go",
    "~!",
    "4",
    "a-b",
    "bedside",
    "transfer",
    "transfes",
    "Transfer",
    "wheelchair",
    "wheelxhair",
    "stretcher-with-oxygen-to-ward17",
    "stretcher-with-oxygen-to-ward71",
];
const NAMES: [&str; 7] = ["s", "n", "np", "x1", "x10", "o", "q"];

/// Basic types with their order pairs and the targets.
pub struct Types {
    pub count: usize,
    pub pairs: Vec<(u8, u8)>,
    pub targets: Vec<u8>,
}

impl Types {
    pub fn new(random: &mut Random, most: usize) -> Types {
        let count = 1 + random.below(most);
        let mut types = Types {
            count,
            pairs: vec![],
            targets: targets::any(random, count),
        };
        for _ in 0..random.below(count + 1) {
            let pair = (types.any(random), types.any(random));
            types.pairs.push(pair);
        }
        types
    }

    pub fn any(&self, random: &mut Random) -> u8 {
        random.below(self.count) as u8
    }

    /// One of the targets, often the last.
    pub fn any_target(&self, random: &mut Random) -> u8 {
        let any = random.below(self.targets.len());
        let last = self.targets.len() - 1;
        self.targets[*random.pick(&[any, any, last])]
    }

    /// A type at or above the given one, by a few steps along the pairs.
    pub fn above(&self, random: &mut Random, mut basic: u8) -> u8 {
        for _ in 0..random.below(3) {
            let up: Vec<&(u8, u8)> = self.pairs.iter().filter(|p| p.0 == basic).collect();
            if !up.is_empty() {
                basic = random.pick(&up).1;
            }
        }
        basic
    }

    /// A type at or below some target, by a few steps along the pairs.
    pub fn below_target(&self, random: &mut Random) -> u8 {
        let target = self.any_target(random);
        self.below(random, target)
    }

    /// A type at or below the given one, by a few steps along the pairs.
    pub fn below(&self, random: &mut Random, mut basic: u8) -> u8 {
        for _ in 0..random.below(3) {
            let down: Vec<&(u8, u8)> = self.pairs.iter().filter(|p| p.1 == basic).collect();
            if !down.is_empty() {
                basic = random.pick(&down).0;
            }
        }
        basic
    }

    /// Two simple types that contract, with exponents from `low` to `high`.
    pub fn contracting(&self, random: &mut Random, low: i64, high: i64) -> [(u8, i8); 2] {
        let z = random.between(low, high - 1) as i8;
        let lower = self.any(random);
        let upper = self.above(random, lower);
        match z % 2 == 0 {
            true => [(lower, z), (upper, z + 1)],
            false => [(upper, z), (lower, z + 1)],
        }
    }

    /// A string that has a linking: `links` pairs put in one after another,
    /// each between any two neighbours, around a type below some target.
    /// Exponents are small in most strings.
    pub fn readable(&self, random: &mut Random, links: usize) -> TypeString {
        let far = match random.chance(1, 8) {
            true => 8,
            false => 2,
        };
        let mut before: TypeString = vec![];
        let mut after: TypeString = vec![];
        for _ in 0..links {
            let side = match random.chance(1, 2) {
                true => &mut before,
                false => &mut after,
            };
            let at = random.below(side.len() + 1);
            side.splice(at..at, self.contracting(random, -far, far));
        }
        before.push((self.below_target(random), 0));
        before.append(&mut after);
        before
    }

    /// An entry's type of some shape that is usual in grammars, or any type.
    pub fn shaped(&self, random: &mut Random) -> TypeString {
        let (t, x, y) = (self.any_target(random), self.any(random), self.any(random));
        match random.below(11) {
            0 => vec![],
            1 => vec![(x, 0)],
            2 => vec![(t, 0)],
            3 => vec![(t, 0), (x, -1)],
            4 => vec![(x, 1), (t, 0)],
            5 => vec![(t, 1), (t, 0)],
            6 => vec![(t, 0), (t, -1)],
            7 => vec![(x, 0), (x, 1)],
            8 => vec![(x, -1), (x, 0)],
            9 => vec![(x, 1), (t, 0), (y, -1)],
            _ => self.random(random),
        }
    }

    fn random(&self, random: &mut Random) -> TypeString {
        let length = random.below(6);
        (0..length)
            .map(|_| (self.any(random), random.between(-2, 2) as i8))
            .collect()
    }
}

/// A string cut into pieces, some of them empty.
pub fn cut(random: &mut Random, string: &TypeString, pieces: usize) -> Vec<TypeString> {
    let mut cuts: Vec<usize> = (1..pieces)
        .map(|_| random.below(string.len() + 1))
        .collect();
    cuts.extend([0, string.len()]);
    cuts.sort_unstable();
    let piece = |ends: &[usize]| string[ends[0]..ends[1]].to_vec();
    cuts.windows(2).map(piece).collect()
}

/// A small book with a line over its words.
pub struct Small {
    pub types: Types,
    pub entries: Vec<(Vec<u8>, TypeString)>,
    pub words: Vec<Vec<u8>>,
}

impl Small {
    pub fn new(random: &mut Random) -> Small {
        let mut pool = WORDS.map(|word| word.as_bytes().to_vec());
        random.shuffle(&mut pool);
        let words = 2 + random.below(4);
        Small::over(random, &pool[..words])
    }

    /// A book of the given words, each with an entry, and a line over them.
    pub fn over(random: &mut Random, vocabulary: &[Vec<u8>]) -> Small {
        let places = random.below(8);
        let mut small = Small {
            types: Types::new(random, 6),
            entries: vec![],
            words: (0..places)
                .map(|_| random.pick(vocabulary).clone())
                .collect(),
        };
        for _ in 0..random.below(3) {
            small.add_readable(random);
        }
        for word in vocabulary {
            small.add_shaped(random, word);
        }
        if random.chance(1, 4) {
            small.repeat_entry(random);
        }
        random.shuffle(&mut small.entries);
        small
    }

    /// How many entries a word has, under all its spellings.
    fn entries_of(&self, word: &[u8]) -> usize {
        let of_word = |entry: &&(Vec<u8>, TypeString)| entry.0.eq_ignore_ascii_case(word);
        self.entries.iter().filter(of_word).count()
    }

    /// Entries that together give the line a reading, as far as four entries
    /// for each word allow.
    fn add_readable(&mut self, random: &mut Random) {
        if self.words.is_empty() {
            return;
        }
        let links = random.below(self.words.len() + 1);
        let string = self.types.readable(random, links);
        let pieces = cut(random, &string, self.words.len());
        for (word, piece) in self.words.clone().into_iter().zip(pieces) {
            if self.entries_of(&word) < 4 && piece.len() <= 12 {
                self.entries.push((word, piece));
            }
        }
    }

    /// More entries of a word; at least one where it has none.
    fn add_shaped(&mut self, random: &mut Random, word: &[u8]) {
        let present = self.entries_of(word);
        let least = usize::from(present == 0);
        let more = random.below(3).max(least).min(4 - present);
        for _ in 0..more {
            let simple_types = self.types.shaped(random);
            self.entries.push((word.to_vec(), simple_types));
        }
    }

    /// An entry once more, where its word has room for one.
    fn repeat_entry(&mut self, random: &mut Random) {
        let entry = random.pick(&self.entries).clone();
        if self.entries_of(&entry.0) < 4 {
            self.entries.push(entry);
        }
    }

    /// The book: basic types first, the other records in any order, but targets
    /// in their own, and sometimes one more basic type among them.
    pub fn records(&self, random: &mut Random) -> Records {
        self.records_with(random, &NAMES)
    }

    /// The same with other names for the basic types: seven, or one more than there are types.
    pub fn records_with(&self, random: &mut Random, names: &[&str]) -> Records {
        let mut others = Records::default();
        for (lower, upper) in &self.types.pairs {
            others.pair(*lower, *upper);
        }
        for target in &self.types.targets {
            others.target(*target);
        }
        if random.chance(1, 4) {
            others.basic_type(names[self.types.count.max(6)].as_bytes());
        }
        random.shuffle(&mut others.list);
        let mut records = Records::default();
        for name in &names[..self.types.count] {
            records.basic_type(name.as_bytes());
        }
        let basic_types = records.list.len();
        for (word, simple_types) in &self.entries {
            records.entry(word, simple_types);
        }
        for record in others.list {
            let places = records.list.len() + 1 - basic_types;
            let at = basic_types + random.below(places);
            records.list.insert(at, record);
        }
        let targets = records.list.iter_mut().filter(|record| record[2] == 4);
        for (record, target) in targets.zip(&self.types.targets) {
            record[4] = *target;
        }
        records
    }
}

pub fn ambiguous(random: &mut Random) -> Case {
    let small = Small::new(random);
    let book = small.records(random).bytes();
    let line = joined(random, &small.words);
    lend(random, "ambiguous", book, line)
}
