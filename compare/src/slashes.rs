//! Types written with slashes, for books that are made: trees, with their texts and their simple types.

use crate::random::Random;
use std::collections::HashMap;
use std::ops::Range;

/// A simple type: a basic type's number and an exponent.
type Simple = (u8, i8);

/// How many brackets may be open at once.
pub const MOST_OPEN: usize = 6;

/// A type as it is written, without needless brackets.
#[derive(Clone, Debug)]
pub enum Tree {
    Name(u8),
    /// A/B, as A and B.
    Over(Box<Tree>, Box<Tree>),
    /// B\A, as B and A.
    Under(Box<Tree>, Box<Tree>),
}

impl Tree {
    /// A tree of so many names, of types with numbers below another, or of 128 names if there would be more.
    pub fn random(random: &mut Random, types: usize, names: usize) -> Tree {
        Tree::within(random, types, names, MOST_OPEN)
    }

    /// The same with so many brackets left to open. Each doubles the names that a unit may have.
    fn within(random: &mut Random, types: usize, names: usize, open: usize) -> Tree {
        if names < 2 {
            return Tree::Name(random.below(types) as u8);
        }
        let most = 1 << open;
        let names = names.min(2 * most);
        let least = names.saturating_sub(most).max(1);
        let first = least + random.below(names - 2 * least + 1);
        let second = names - first;
        let mut part = |names| {
            let inside = open.saturating_sub(1);
            Box::new(Tree::within(random, types, names, inside))
        };
        let (first, second) = (part(first), part(second));
        match random.chance(1, 2) {
            true => Tree::Over(first, second),
            false => Tree::Under(first, second),
        }
    }

    /// A tree of a type, where the type can be written.
    pub fn of(random: &mut Random, simple_types: &[Simple]) -> Option<Tree> {
        Writer::default().tree(random, simple_types.to_vec(), MOST_OPEN)
    }

    /// The simple types that the tree stands for.
    pub fn simple_types(&self) -> Vec<Simple> {
        let mut all = vec![];
        self.put(0, &mut all);
        all
    }

    /// Adds the simple types of the tree's adjoint, right adjoints counted up from 0 and left ones down. An odd one is turned round.
    fn put(&self, adjoint: i8, all: &mut Vec<Simple>) {
        let (first, second) = match self {
            Tree::Name(number) => return all.push((*number, adjoint)),
            Tree::Over(a, b) => ((a, adjoint), (b, adjoint - 1)),
            Tree::Under(b, a) => ((b, adjoint + 1), (a, adjoint)),
        };
        let parts = match adjoint % 2 == 0 {
            true => [first, second],
            false => [second, first],
        };
        for (part, adjoint) in parts {
            part.put(adjoint, all);
        }
    }

    /// The text, with a type's name for each number.
    pub fn text<N: AsRef<[u8]>>(&self, names: &[N]) -> Vec<u8> {
        match self {
            Tree::Name(number) => names[*number as usize].as_ref().to_vec(),
            Tree::Over(a, b) => [a.unit(names), b.unit(names)].join(&b'/'),
            Tree::Under(b, a) => [b.unit(names), a.unit(names)].join(&b'\\'),
        }
    }

    fn unit<N: AsRef<[u8]>>(&self, names: &[N]) -> Vec<u8> {
        let text = self.text(names);
        match self {
            Tree::Name(_) => text,
            _ => bracketed(&text),
        }
    }

    /// The text, with needless brackets where there is room for them.
    pub fn loose_text<N: AsRef<[u8]>>(&self, random: &mut Random, names: &[N]) -> Vec<u8> {
        let mut text = self.text(names);
        for _ in 0..random.below(4) {
            let more = with_needless_brackets(random, &text);
            if deepest(&more) <= MOST_OPEN as isize {
                text = more;
            }
        }
        text
    }
}

fn bracketed(text: &[u8]) -> Vec<u8> {
    [b"(", text, b")"].concat()
}

/// The text in brackets, or with one of its names in brackets. Names of a damaged book may have neither letters nor digits.
fn with_needless_brackets(random: &mut Random, text: &[u8]) -> Vec<u8> {
    let names = name_ranges(text);
    match names.is_empty() || random.chance(1, 3) {
        true => bracketed(text),
        false => {
            let name = random.pick(&names).clone();
            let inside = bracketed(&text[name.clone()]);
            [&text[..name.start], &inside, &text[name.end..]].concat()
        }
    }
}

/// Where the names of a text stand: the longest stretches of letters and digits.
pub fn name_ranges(text: &[u8]) -> Vec<Range<usize>> {
    let mut ranges: Vec<Range<usize>> = vec![];
    for (at, byte) in text.iter().enumerate() {
        if byte.is_ascii_alphanumeric() {
            match ranges.last_mut() {
                Some(last) if last.end == at => last.end += 1,
                _ => ranges.push(at..at + 1),
            }
        }
    }
    ranges
}

/// By how many opening brackets outnumber closing ones up to some byte, at most.
pub fn deepest(text: &[u8]) -> isize {
    let mut open = 0;
    let mut most = 0;
    for byte in text {
        open += isize::from(*byte == b'(') - isize::from(*byte == b')');
        most = most.max(open);
    }
    most
}

/// What turns types into trees. It keeps which types can be written with so many brackets left to open.
#[derive(Default)]
struct Writer {
    known: HashMap<(Vec<Simple>, usize), bool>,
}

/// A way to write a type: the two units that stand beside the slash, and whether it is `/`.
type Way = (Vec<Simple>, Vec<Simple>, bool);

impl Writer {
    /// Any tree of a type, where there is one.
    fn tree(&mut self, random: &mut Random, string: Vec<Simple>, open: usize) -> Option<Tree> {
        if let [(number, 0)] = string[..] {
            return Some(Tree::Name(number));
        }
        let mut ways = ways(&string);
        ways.retain(|way| self.can_be_gone(way, open));
        if ways.is_empty() {
            return None;
        }
        let (first, second, over) = random.pick(&ways).clone();
        let inside = open.saturating_sub(1);
        let first = Box::new(self.tree(random, first, inside)?);
        let second = Box::new(self.tree(random, second, inside)?);
        Some(match over {
            true => Tree::Over(first, second),
            false => Tree::Under(first, second),
        })
    }

    fn can_be_gone(&mut self, (first, second, _): &Way, open: usize) -> bool {
        self.is_unit(first, open) && self.is_unit(second, open)
    }

    fn is_unit(&mut self, string: &[Simple], open: usize) -> bool {
        // Somewhere in a type stands the name that all else is put to.
        if string.iter().all(|simple| simple.1 != 0) {
            return false;
        }
        if string.len() == 1 || open == 0 {
            return string.len() == 1;
        }
        let key = (string.to_vec(), open);
        if let Some(known) = self.known.get(&key) {
            return *known;
        }
        let found = ways(string)
            .iter()
            .any(|way| self.can_be_gone(way, open - 1));
        self.known.insert(key, found);
        found
    }
}

/// All ways to cut a type in two. The left adjoint of B stands behind A in A/B, its right adjoint before A in B\A.
fn ways(string: &[Simple]) -> Vec<Way> {
    let mut ways = vec![];
    for cut in 1..string.len().max(1) {
        let (before, behind) = string.split_at(cut);
        ways.push((before.to_vec(), adjoint(behind, 1), true));
        ways.push((adjoint(before, -1), behind.to_vec(), false));
    }
    ways
}

/// The string reversed, with every exponent moved by one.
pub fn adjoint(string: &[Simple], by: i8) -> Vec<Simple> {
    let moved = |simple: &Simple| (simple.0, simple.1.wrapping_add(by));
    string.iter().rev().map(moved).collect()
}

#[cfg(test)]
mod tests {
    use super::*;
    use crate::books::Records;
    use crate::independent::{check_book, read_line};
    use std::collections::BTreeSet;

    const NAMES: [&str; 3] = ["o", "p", "w"];

    #[test]
    fn texts_and_types_by_hand() {
        let name = |number| Box::new(Tree::Name(number));
        let first = Tree::Over(Box::new(Tree::Over(name(0), name(2))), name(1));
        assert_eq!(first.text(&NAMES), b"(o/w)/p");
        assert_eq!(first.simple_types(), [(0, 0), (2, -1), (1, -1)]);
        let second = Tree::Over(name(0), Box::new(Tree::Over(name(1), name(2))));
        assert_eq!(second.text(&NAMES), b"o/(p/w)");
        assert_eq!(second.simple_types(), [(0, 0), (2, -2), (1, -1)]);
        let third = Tree::Under(Box::new(Tree::Under(name(1), name(0))), name(2));
        assert_eq!(third.text(&NAMES), b"(p\\o)\\w");
        assert_eq!(third.simple_types(), [(0, 1), (1, 2), (2, 0)]);
    }

    #[test]
    fn types_are_written_back() {
        let mut shapes = BTreeSet::new();
        for number in 0..2_000 {
            let random = &mut Random::for_case(12, number);
            let names = 1 + random.below(12);
            let simple_types = Tree::random(random, 3, names).simple_types();
            assert_eq!(simple_types.len(), names);
            let again = Tree::of(random, &simple_types).expect("the type has a tree");
            assert_eq!(again.simple_types(), simple_types);
            shapes.insert(again.text(&NAMES));
        }
        assert!(shapes.len() > 1_000);
    }

    #[test]
    fn some_types_cannot_be_written() {
        let random = &mut Random::new(1);
        let not: [&[Simple]; 5] = [
            &[],
            &[(0, 1)],
            &[(0, 0), (0, 0)],
            &[(0, 0), (0, 1)],
            &[(0, 1), (0, -1)],
        ];
        for simple_types in not {
            assert!(Tree::of(random, simple_types).is_none(), "{simple_types:?}");
        }
    }

    /// The independent reader takes a text for the simple types of its tree: the entries of two books are read alike.
    #[test]
    fn texts_are_read_as_their_types() {
        for number in 0..500 {
            let random = &mut Random::for_case(13, number);
            let names = 1 + random.below(12);
            let tree = Tree::random(random, 3, names);
            let simple_types = tree.simple_types();
            // A word for each simple type that links with it, and the target before all.
            let mut partners: Vec<Simple> = simple_types.clone();
            partners.reverse();
            let partner = |simple: &Simple| (simple.0, simple.1 + 1);
            let partners: Vec<Simple> = partners.iter().map(partner).collect();
            let mut book = Records::default();
            for name in NAMES {
                book.basic_type(name.as_bytes());
            }
            book.target(0);
            book.entry(b"t", &[(0, 0)]);
            book.entry(b"y", &partners);
            let (mut plain, mut slashed) = (book.clone(), book);
            plain.entry(b"x", &simple_types);
            slashed.slashed_entry(b"x", &tree.text(&NAMES));
            let read = |book: &Records| {
                let mut answer = [0; 64];
                let book = book.bytes();
                let read = read_line(&book, b"t x y", &mut answer);
                (check_book(&book), read, answer)
            };
            assert!(read(&plain).1.is_ok());
            assert_eq!(read(&plain), read(&slashed), "{tree:?}");
        }
    }
}
