//! Types in slash notation: the text of a kind 5 entry, by request 2.5 of
//! document 02.

use super::{is_type_name, SimpleType};

const MOST_OPEN_BRACKETS: isize = 6;

/// A type as it is written; brackets leave no trace.
pub enum Written<'a> {
    Name(&'a [u8]),
    /// A/B, as A and B.
    Over(Box<Written<'a>>, Box<Written<'a>>),
    /// B\A, as B and A.
    Under(Box<Written<'a>>, Box<Written<'a>>),
}

/// For each place of a text, its end included, by how many opening brackets
/// outnumber closing ones before it.
fn surplus(text: &[u8]) -> Vec<isize> {
    let mut all = vec![0];
    for (place, byte) in text.iter().enumerate() {
        all.push(match byte {
            b'(' => all[place] + 1,
            b')' => all[place] - 1,
            _ => all[place],
        });
    }
    all
}

/// Whether up to some byte opening brackets outnumber closing ones by more than
/// six.
pub fn too_deep(text: &[u8]) -> bool {
    surplus(text).into_iter().any(|n| n > MOST_OPEN_BRACKETS)
}

/// A type: a unit, or two units with one slash between. Each unit has as many
/// opening as closing brackets, and so has what stands before that slash.
pub fn parse(text: &[u8]) -> Option<Written<'_>> {
    let surplus = surplus(text);
    let between = |place: &usize| matches!(text[*place], b'/' | b'\\') && surplus[*place] == 0;
    let slashes: Vec<usize> = (0..text.len()).filter(between).collect();
    match slashes[..] {
        [] => unit(text),
        [place] => {
            let first = Box::new(unit(&text[..place])?);
            let second = Box::new(unit(&text[place + 1..])?);
            match text[place] {
                b'/' => Some(Written::Over(first, second)),
                _ => Some(Written::Under(first, second)),
            }
        }
        _ => None,
    }
}

/// A unit: a name, or a type in brackets.
fn unit(text: &[u8]) -> Option<Written<'_>> {
    match text {
        [b'(', inside @ .., b')'] => parse(inside),
        name if is_type_name(name) => Some(Written::Name(name)),
        _ => None,
    }
}

impl Written<'_> {
    /// The simple types, if every name has a number.
    pub fn simple_types(
        &self,
        number: &impl Fn(&[u8]) -> Option<usize>,
    ) -> Option<Vec<SimpleType>> {
        match self {
            Written::Name(name) => Some(vec![SimpleType {
                basic: number(name)?,
                exponent: 0,
            }]),
            Written::Over(a, b) => {
                let (a, b) = (a.simple_types(number)?, b.simple_types(number)?);
                Some([a, left_adjoint(b)].concat())
            }
            Written::Under(b, a) => {
                let (b, a) = (b.simple_types(number)?, a.simple_types(number)?);
                Some([right_adjoint(b), a].concat())
            }
        }
    }
}

/// The string reversed, with every exponent one down.
fn left_adjoint(string: Vec<SimpleType>) -> Vec<SimpleType> {
    moved(string, -1)
}

/// The string reversed, with every exponent one up.
fn right_adjoint(string: Vec<SimpleType>) -> Vec<SimpleType> {
    moved(string, 1)
}

fn moved(string: Vec<SimpleType>, by: i8) -> Vec<SimpleType> {
    let one = |simple: SimpleType| SimpleType {
        exponent: simple.exponent + by,
        ..simple
    };
    string.into_iter().rev().map(one).collect()
}

#[cfg(test)]
mod tests {
    use super::super::parse_book;
    use super::*;
    use crate::books::{record, Records};

    /// The basic types of the book that texts are tried in.
    const NAMES: [&str; 5] = ["o", "p", "w", "a1", "abcdefghijklmno"];

    /// A book of those types with one text as its entry's, and the entry's offset.
    fn book(text: &str) -> (Vec<u8>, u64) {
        let mut book = Records::default();
        for name in NAMES {
            book.basic_type(name.as_bytes());
        }
        book.target(0);
        let offset = book.bytes().len() as u64;
        book.list
            .push(record(5, &[b"\x01x", text.as_bytes()].concat()));
        (book.bytes(), offset)
    }

    /// The simple types that a text stands for, written as "o w^-1 p^-1".
    fn type_of(text: &str) -> String {
        let (bytes, _) = book(text);
        let Ok(book) = parse_book(&bytes) else {
            panic!("{text} is refused");
        };
        let simple = |simple: &SimpleType| match simple.exponent {
            0 => NAMES[simple.basic].to_string(),
            exponent => format!("{}^{exponent}", NAMES[simple.basic]),
        };
        let simple_types: Vec<String> = book.entries[0].simple_types.iter().map(simple).collect();
        simple_types.join(" ")
    }

    /// The number that a text is refused with.
    fn refusal(text: &str) -> u32 {
        let (bytes, offset) = book(text);
        let Err((number, value)) = parse_book(&bytes).map(|_| ()) else {
            panic!("{text} is accepted");
        };
        assert_eq!(value, offset, "{text}");
        number
    }

    fn expect_refusals(number: u32, texts: &[&str]) {
        for text in texts {
            assert_eq!(refusal(text), number, "{text}");
        }
    }

    #[test]
    fn examples_of_the_request() {
        assert_eq!(type_of("(o/w)/p"), "o w^-1 p^-1");
        assert_eq!(type_of("o/(p/w)"), "o w^-2 p^-1");
        assert_eq!(type_of("o/p"), "o p^-1");
        assert_eq!(type_of("o\\o"), "o^1 o");
    }

    #[test]
    fn texts_by_hand() {
        for (text, simple_types) in [
            ("o", "o"),
            ("(o)", "o"),
            ("((((((o))))))", "o"),
            ("a1", "a1"),
            ("abcdefghijklmno", "abcdefghijklmno"),
            ("(o)/(p)", "o p^-1"),
            ("(o/p)", "o p^-1"),
            ("p\\o", "p^1 o"),
            ("(p\\o)/w", "p^1 o w^-1"),
            ("p\\(o/w)", "p^1 o w^-1"),
            ("(p\\o)\\w", "o^1 p^2 w"),
            ("(o/p)\\w", "p o^1 w"),
            ("o/(p\\w)", "o w^-1 p"),
            ("(o/p)/(w/a1)", "o p^-1 a1^-2 w^-1"),
            ("(o\\p)\\(w\\a1)", "p^1 o^2 w^1 a1"),
            ("o/(p/(w/a1))", "o w^-2 a1^-3 p^-1"),
            ("((o\\p)\\w)\\a1", "w^1 o^3 p^2 a1"),
            (
                "o/(o/(o/(o/(o/(o/(o/p))))))",
                "o o^-2 o^-4 o^-6 p^-7 o^-5 o^-3 o^-1",
            ),
            (
                "((((((p\\o)\\o)\\o)\\o)\\o)\\o)\\o",
                "o^1 o^3 o^5 p^7 o^6 o^4 o^2 o",
            ),
        ] {
            assert_eq!(type_of(text), simple_types, "{text}");
        }
    }

    #[test]
    fn brackets_too_deep() {
        expect_refusals(
            19,
            &[
                "(((((((",
                "(((((((o)))))))",
                ")((((((((",
                "o((((((( !",
                "()(((((((",
                "(o)/(((((((o)))))))",
                "(((((( nobody A (",
                "\u{7f}(((((((",
            ],
        );
        // One closing and seven opening brackets: six is not more than six.
        expect_refusals(20, &[")(((((((", "((((((", "((((((o)))))", "())((((((("]);
    }

    #[test]
    fn texts_that_break_the_grammar() {
        expect_refusals(
            20,
            &[
                "",
                "()",
                "(())",
                "o/p/w",
                "o\\p/w",
                "o\\p\\w",
                "(o/p/w)",
                "/o",
                "o/",
                "/",
                "\\",
                "o//p",
                "o/\\p",
                "o\\\\p",
                "(/o)",
                "(o)(p)",
                "o(p)",
                "(o)p",
                "o)",
                "(o",
                "o)(",
                ")o(",
                "((o)",
                "(o))",
                "o ",
                " o",
                "o /p",
                "o/ p",
                "o p",
                "O",
                "oP",
                "0",
                "1a",
                "o/1a",
                "o-p",
                "o^p",
                "o|p",
                "o\0",
                "o\n",
                "[o]",
                "abcdefghijklmnop",
                "o/abcdefghijklmnop",
                "\u{e9}",
            ],
        );
    }

    #[test]
    fn undeclared_names_come_behind_the_grammar() {
        expect_refusals(
            5,
            &[
                "x",
                "o/x",
                "x\\o",
                "(o/x)/p",
                "oo",
                "a",
                "a11",
                "abcdefghijklmn",
            ],
        );
        expect_refusals(20, &["x/", "x/o/p", "x p", "o/x)"]);
        expect_refusals(19, &["x/(((((((o)))))))"]);
    }

    /// So many names in a row of a text with few brackets.
    fn names(count: usize) -> String {
        match count {
            1 => "o".to_string(),
            2 => "o/o".to_string(),
            _ => format!("({})/({})", names(count / 2), names(count - count / 2)),
        }
    }

    #[test]
    fn over_twelve_simple_types() {
        let twelve = type_of(&names(12));
        assert_eq!(twelve.split(' ').count(), 12);
        expect_refusals(21, &[&names(13), &names(14), &names(64), &names(128)]);
        // An undeclared name among 13, first or last.
        let thirteen = names(13);
        let first = thirteen.replacen('o', "x", 1);
        let last = format!("{}x)))", thirteen.trim_end_matches(['o', ')']));
        expect_refusals(5, &[&first, &last]);
        expect_refusals(20, &[&(thirteen.clone() + "/")]);
        expect_refusals(19, &[&(thirteen + "(((((((")]);
    }
}
