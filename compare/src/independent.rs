//! The book check, the line reader and the listing of document 01 with requests
//! 2.1, 2.2 and 2.4 to 2.7 of document 02, straight from their definitions: a
//! second implementation, to be compared with the first.

mod listing;
mod slashes;

use crate::types::{Counts, InTheWay, Refusal};
pub use listing::reading;

const MOST_BOOK_BYTES: usize = 65_535;
const MOST_BASIC_TYPES: usize = 64;
const MOST_ENTRIES: usize = 1_024;
const MOST_TARGETS: usize = 8;
const MOST_WORD_BYTES: usize = 31;
const MOST_ENTRY_TYPES: usize = 12;
const MOST_WORDS: usize = 24;
const MOST_LINE_TYPES: usize = 512;
const MOST_ANSWER_VALUES: usize = 3 + MOST_WORDS + MOST_LINE_TYPES;
const MOST_BATCH_LINES: usize = 32;
const MOST_BATCH_BYTES: usize = 65_535;
const LINE_END: u8 = 10;

/// Checks a book alone.
pub fn check_book(book: &[u8]) -> Result<Counts, Refusal> {
    let book = parse_book(book)?;
    Ok(Counts {
        types: book.names.len() as u64,
        entries: book.entries.len() as u64,
        pairs: book.order.pairs(),
    })
}

/// Reads a line against a book: the number of values written, or a refusal
/// with the answer untouched.
pub fn read_line(book: &[u8], line: &[u8], answer: &mut [u16]) -> Result<u64, Refusal> {
    let book = parse_book(book)?;
    let values = answer_values(&first_reading(&book, line)?);
    if answer.len() < values.len() {
        return Err((16, values.len() as u64));
    }
    answer[..values.len()].copy_from_slice(&values);
    Ok(values.len() as u64)
}

/// Reads a line against a book as `read_line` does. A line refused with 15
/// gets beside it the number of the words in its way, any other line nothing.
pub fn words_in_the_way(book: &[u8], line: &[u8], answer: &mut [u16]) -> InTheWay {
    match read_line(book, line, answer) {
        Ok(values) => Ok(values),
        Err((15, value)) => {
            let number = number_in_the_way(book, line).expect("the line breaks none of 11 to 14");
            Err(((15, value), Some(number)))
        }
        Err(refusal) => Err((refusal, None)),
    }
}

/// The number whose bit k is set exactly when the line without word k + 1 has a
/// reading, for any target: refusals as far as 14.
fn number_in_the_way(book: &[u8], line: &[u8]) -> Result<u32, Refusal> {
    let book = parse_book(book)?;
    let places = places_of(&book, line)?;
    let mut number = 0;
    for k in 0..places.len() {
        let mut others = places.clone();
        others.remove(k);
        if first_target(&book, &others).is_some() {
            number |= 1 << k;
        }
    }
    Ok(number)
}

/// Reads a batch of lines against a book: the number of lines, or a refusal
/// with the answers untouched.
pub fn read_batch(book: &[u8], lines: &[u8], answers: &mut [u16]) -> Result<u64, Refusal> {
    let (closed, open) = cut_at_line_ends(lines);
    if closed.len() > MOST_BATCH_LINES || lines.len() > MOST_BATCH_BYTES || !open.is_empty() {
        return Err((17, 0));
    }
    check_book(book)?;
    let mut values = vec![];
    for line in &closed {
        values.extend(batch_answer(book, line));
    }
    if values.len() > answers.len() {
        return Err((18, values.len() as u64));
    }
    answers[..values.len()].copy_from_slice(&values);
    Ok(closed.len() as u64)
}

/// The closed lines, without the bytes that close them, and what stands behind
/// the last of these bytes.
fn cut_at_line_ends(lines: &[u8]) -> (Vec<Vec<u8>>, Vec<u8>) {
    let mut closed = vec![];
    let mut open = vec![];
    for byte in lines {
        if *byte == LINE_END {
            closed.push(open);
            open = vec![];
        } else {
            open.push(*byte);
        }
    }
    (closed, open)
}

/// What the line alone gets with ample buffer, as it stands in a batch: a count
/// of the values after it, the refusal number or 0, then the answer or the
/// returned value.
fn batch_answer(book: &[u8], line: &[u8]) -> Vec<u16> {
    let mut answer = [0; MOST_ANSWER_VALUES];
    let after = match read_line(book, line, &mut answer) {
        Ok(length) => [&[0], &answer[..length as usize]].concat(),
        Err((number, value)) => vec![value_of(number.into()), value_of(value)],
    };
    [vec![value_of(after.len() as u64)], after].concat()
}

fn value_of(number: u64) -> u16 {
    number.try_into().expect("the number fits 16 bits")
}

/// The target's number, n, the n entry numbers, m, the m partners counted from 1.
fn answer_values(reading: &Reading) -> Vec<u16> {
    let (choice, partners) = (&reading.choice, &reading.partners);
    let mut values = vec![reading.target_number as u16, choice.len() as u16];
    values.extend(choice.iter().map(|entry| entry.number as u16));
    values.push(partners.len() as u16);
    values.extend(partners.iter().map(|partner| *partner as u16 + 1));
    values
}

/// A reading: the target's number, an entry for each word, their types joined
/// and the partner of each position, counted from 0.
struct Reading<'b> {
    target_number: usize,
    choice: Vec<&'b Entry<'b>>,
    string: Vec<SimpleType>,
    partners: Vec<usize>,
}

/// The first of a line's readings: refusals 11 to 15.
fn first_reading<'b>(book: &'b Book<'b>, line: &[u8]) -> Result<Reading<'b>, Refusal> {
    let places = places_of(book, line)?;
    let target_number = first_target(book, &places).ok_or((15, 0))?;
    let target = book.targets[target_number];
    let choice = first_choice(&book.order, places, target);
    let string: Vec<SimpleType> = choice.iter().flat_map(|e| e.simple_types.clone()).collect();
    let partners = first_linking(&book.order, &string, target).expect("the choice has a linking");
    Ok(Reading {
        target_number,
        choice,
        string,
        partners,
    })
}

// The book

#[derive(Clone, Copy, PartialEq, Eq)]
struct SimpleType {
    basic: usize,
    exponent: i8,
}

struct Entry<'a> {
    number: usize,
    word: &'a [u8],
    simple_types: Vec<SimpleType>,
}

/// `at_or_below[a][b]` says a ≤ b.
struct Order {
    at_or_below: Vec<Vec<bool>>,
}

struct Book<'a> {
    names: Vec<&'a [u8]>,
    entries: Vec<Entry<'a>>,
    order: Order,
    targets: Vec<usize>,
}

/// What the records read so far hold.
#[derive(Default)]
struct Draft<'a> {
    names: Vec<&'a [u8]>,
    pairs: Vec<(usize, usize)>,
    entries: Vec<Entry<'a>>,
    targets: Vec<usize>,
}

fn parse_book(book: &[u8]) -> Result<Book<'_>, Refusal> {
    if book.len() > MOST_BOOK_BYTES {
        return Err((1, 0));
    }
    let mut draft = Draft::default();
    let mut offset = 0;
    while offset < book.len() {
        let length = draft
            .add_record(&book[offset..])
            .map_err(|number| (number, offset as u64))?;
        offset += length;
    }
    if draft.targets.is_empty() {
        return Err((10, book.len() as u64));
    }
    Ok(Book {
        order: Order::closure(draft.names.len(), &draft.pairs),
        names: draft.names,
        entries: draft.entries,
        targets: draft.targets,
    })
}

/// Each function tries its causes in the order of their numbers.
impl<'a> Draft<'a> {
    /// Adds the record at the front of `rest` and returns its length.
    fn add_record(&mut self, rest: &'a [u8]) -> Result<usize, u32> {
        let head = rest.get(..4).ok_or(2u32)?;
        let body_length = u16::from_le_bytes([head[0], head[1]]) as usize;
        let kind = u16::from_le_bytes([head[2], head[3]]);
        let body = rest.get(4..4 + body_length).ok_or(2u32)?;
        match kind {
            1 => self.add_basic_type(body)?,
            2 => self.add_pair(body)?,
            3 => self.add_entry(body)?,
            4 => self.add_target(body)?,
            5 => self.add_slashed_entry(body)?,
            _ => return Err(3),
        }
        Ok(4 + body_length)
    }

    fn add_basic_type(&mut self, name: &'a [u8]) -> Result<(), u32> {
        if !is_type_name(name) {
            return Err(4);
        }
        if self.names.contains(&name) {
            return Err(7);
        }
        if self.names.len() == MOST_BASIC_TYPES {
            return Err(9);
        }
        self.names.push(name);
        Ok(())
    }

    fn add_pair(&mut self, body: &[u8]) -> Result<(), u32> {
        let [lower, upper] = *body else {
            return Err(4);
        };
        let (lower, upper) = (lower as usize, upper as usize);
        if !self.declared(lower) || !self.declared(upper) {
            return Err(5);
        }
        self.pairs.push((lower, upper));
        Ok(())
    }

    fn add_entry(&mut self, body: &'a [u8]) -> Result<(), u32> {
        let (word, simple_types) = entry_layout(body).ok_or(4u32)?;
        if simple_types.iter().any(|s| !self.declared(s.basic)) {
            return Err(5);
        }
        if !exponents_within(&simple_types) {
            return Err(6);
        }
        self.number_entry(word, simple_types)
    }

    fn add_slashed_entry(&mut self, body: &'a [u8]) -> Result<(), u32> {
        let (word, text) = word_and_rest(body).ok_or(4u32)?;
        if slashes::too_deep(text) {
            return Err(19);
        }
        let written = slashes::parse(text).ok_or(20u32)?;
        let number = |name: &[u8]| self.names.iter().position(|declared| *declared == name);
        let simple_types = written.simple_types(&number).ok_or(5u32)?;
        if !exponents_within(&simple_types) {
            return Err(6);
        }
        if simple_types.len() > MOST_ENTRY_TYPES {
            return Err(21);
        }
        self.number_entry(word, simple_types)
    }

    /// Adds an entry of either kind, with the next number.
    fn number_entry(&mut self, word: &'a [u8], simple_types: Vec<SimpleType>) -> Result<(), u32> {
        if self.entries.len() == MOST_ENTRIES {
            return Err(9);
        }
        let number = self.entries.len();
        self.entries.push(Entry {
            number,
            word,
            simple_types,
        });
        Ok(())
    }

    fn add_target(&mut self, body: &[u8]) -> Result<(), u32> {
        let [target] = *body else {
            return Err(4);
        };
        if !self.declared(target as usize) {
            return Err(5);
        }
        if self.targets.len() == MOST_TARGETS {
            return Err(8);
        }
        self.targets.push(target as usize);
        Ok(())
    }

    fn declared(&self, basic: usize) -> bool {
        basic < self.names.len()
    }
}

fn is_type_name(name: &[u8]) -> bool {
    let letter = |byte: &u8| byte.is_ascii_lowercase();
    let letter_or_digit = |byte: &u8| byte.is_ascii_lowercase() || byte.is_ascii_digit();
    (1..=15).contains(&name.len()) && letter(&name[0]) && name.iter().all(letter_or_digit)
}

fn exponents_within(simple_types: &[SimpleType]) -> bool {
    simple_types.iter().all(|s| (-8..=8).contains(&s.exponent))
}

/// An entry's word and what stands behind it, if the body begins with a word.
fn word_and_rest(body: &[u8]) -> Option<(&[u8], &[u8])> {
    let length = *body.first()? as usize;
    if !(1..=MOST_WORD_BYTES).contains(&length) {
        return None;
    }
    let word = body.get(1..1 + length)?;
    let word_bytes = word.iter().all(|byte| (33..=126).contains(byte));
    word_bytes.then(|| (word, &body[1 + length..]))
}

/// An entry's word and simple types, if the body has the layout of kind 3.
fn entry_layout(body: &[u8]) -> Option<(&[u8], Vec<SimpleType>)> {
    let (word, rest) = word_and_rest(body)?;
    if !rest.len().is_multiple_of(2) || rest.len() / 2 > MOST_ENTRY_TYPES {
        return None;
    }
    let simple = |bytes: &[u8]| SimpleType {
        basic: bytes[0] as usize,
        exponent: bytes[1] as i8,
    };
    Some((word, rest.chunks(2).map(simple).collect()))
}

impl Order {
    /// The reflexive and transitive closure of the pairs.
    fn closure(types: usize, pairs: &[(usize, usize)]) -> Order {
        let mut at_or_below = vec![vec![false; types]; types];
        for (a, row) in at_or_below.iter_mut().enumerate() {
            row[a] = true;
        }
        for &(lower, upper) in pairs {
            at_or_below[lower][upper] = true;
        }
        for via in 0..types {
            for a in 0..types {
                for b in 0..types {
                    let through = at_or_below[a][via] && at_or_below[via][b];
                    at_or_below[a][b] |= through;
                }
            }
        }
        Order { at_or_below }
    }

    fn pairs(&self) -> u64 {
        self.at_or_below.iter().flatten().filter(|le| **le).count() as u64
    }

    /// Whether a link may have `earlier` and `later` as its ends:
    /// a^(z) b^(z+1), with a ≤ b for even z and b ≤ a for odd z.
    fn contracts(&self, earlier: SimpleType, later: SimpleType) -> bool {
        if later.exponent != earlier.exponent + 1 {
            return false;
        }
        if earlier.exponent % 2 == 0 {
            self.at_or_below[earlier.basic][later.basic]
        } else {
            self.at_or_below[later.basic][earlier.basic]
        }
    }

    /// Whether a simple type that stands under no link may be the unlinked one
    /// of a reading for the target.
    fn may_be_unlinked(&self, simple: SimpleType, target: usize) -> bool {
        simple.exponent == 0 && self.at_or_below[simple.basic][target]
    }
}

// The line

/// The line's words with their offsets: refusals 11 and 12.
fn words_of(line: &[u8]) -> Result<Vec<(usize, &[u8])>, Refusal> {
    let outside = |byte: &u8| !(32..=126).contains(byte);
    if let Some(offset) = line.iter().position(outside) {
        return Err((11, offset as u64));
    }
    let mut words = Vec::new();
    let mut offset = 0;
    for word in line.split(|byte| *byte == b' ') {
        if !word.is_empty() {
            words.push((offset, word));
        }
        offset += word.len() + 1;
    }
    for (place, (offset, word)) in words.iter().enumerate() {
        if word.len() > MOST_WORD_BYTES || place == MOST_WORDS {
            return Err((12, *offset as u64));
        }
    }
    Ok(words)
}

/// All entries of each word, in the book's order: refusals 13 and 14.
fn look_up<'b>(
    book: &'b Book<'b>,
    words: &[(usize, &[u8])],
) -> Result<Vec<Vec<&'b Entry<'b>>>, Refusal> {
    let mut places = Vec::new();
    for (offset, word) in words {
        let of_word = |entry: &&Entry| same_word(entry.word, word);
        let entries: Vec<&Entry> = book.entries.iter().filter(of_word).collect();
        if entries.is_empty() {
            return Err((13, *offset as u64));
        }
        places.push(entries);
    }
    if simple_types_of(&places) > MOST_LINE_TYPES {
        return Err((14, 0));
    }
    Ok(places)
}

/// The entries of each of the line's words that a reading may take: refusals 11
/// to 14.
fn places_of<'b>(book: &'b Book<'b>, line: &[u8]) -> Result<Vec<Vec<&'b Entry<'b>>>, Refusal> {
    let words = words_of(line)?;
    let places = look_up(book, &words)?;
    Ok(places.iter().map(|p| without_repeats(p)).collect())
}

/// Whether a book's word and a line's word are the same: letters A–Z count as
/// their small letters, and no other two bytes are alike.
fn same_word(book_word: &[u8], line_word: &[u8]) -> bool {
    book_word.eq_ignore_ascii_case(line_word)
}

/// How many simple types all entries of all places have together.
fn simple_types_of(places: &[Vec<&Entry>]) -> usize {
    let entries = places.iter().flatten();
    entries.map(|entry| entry.simple_types.len()).sum()
}

// The target

/// The number of the first target for which some choice has a linking.
fn first_target(book: &Book, places: &[Vec<&Entry>]) -> Option<usize> {
    let left = could_be_left(&book.order, places);
    let has_reading = |target: &usize| some_unlinked(&book.order, &left, *target);
    book.targets.iter().position(has_reading)
}

// The choice of entries

/// The choice that has a linking for the target and whose entry numbers are
/// smallest at the first difference, where there is one: place by place the
/// first entry that can be completed.
fn first_choice<'b>(
    order: &Order,
    mut open: Vec<Vec<&'b Entry<'b>>>,
    target: usize,
) -> Vec<&'b Entry<'b>> {
    for place in 0..open.len() {
        let entries = open[place].clone();
        // Some entry can be completed: the last one, where no other can.
        let (last, others) = entries.split_last().expect("each word has an entry");
        let first = others.iter().find(|entry| {
            open[place] = vec![**entry];
            completable(order, &open, target)
        });
        open[place] = vec![*first.unwrap_or(last)];
    }
    open.concat()
}

/// The entries without those whose type an earlier one has. Exchanging such an
/// entry for the earlier one keeps every linking and makes the list smaller.
fn without_repeats<'b>(entries: &[&'b Entry<'b>]) -> Vec<&'b Entry<'b>> {
    let mut kept: Vec<&Entry> = Vec::new();
    for entry in entries {
        let same = |earlier: &&Entry| earlier.simple_types == entry.simple_types;
        if !kept.iter().any(same) {
            kept.push(entry);
        }
    }
    kept
}

/// A simple type of some entry at some place, or one of the line's ends.
#[derive(Clone, Copy)]
enum Node {
    Start,
    Simple(SimpleType),
    End,
}

/// The nodes of all entries of all places, earlier places first. A path from
/// `Start` to `End` along `next` is the string of one choice.
struct Lattice {
    nodes: Vec<Node>,
    /// Node j may stand right after node i in a choice's string.
    next: Table,
}

impl Lattice {
    fn new(places: &[Vec<&Entry>]) -> Lattice {
        let end = simple_types_of(places) + 1;
        let mut nodes = vec![Node::End; end + 1];
        let mut next = Table::new(end + 1);
        // Places and their nodes are added from the last to the first; `first`
        // holds the nodes that may come first in what is added so far.
        let mut first = vec![false; end + 1];
        first[end] = true;
        let mut front = end;
        for entries in places.iter().rev() {
            let mut first_here = vec![false; end + 1];
            for entry in entries {
                for (k, simple) in entry.simple_types.iter().enumerate().rev() {
                    front -= 1;
                    nodes[front] = Node::Simple(*simple);
                    if k + 1 == entry.simple_types.len() {
                        add(next.row_mut(front), &first);
                    } else {
                        next.row_mut(front)[front + 1] = true;
                    }
                }
                if entry.simple_types.is_empty() {
                    add(&mut first_here, &first);
                } else {
                    first_here[front] = true;
                }
            }
            first = first_here;
        }
        nodes[0] = Node::Start;
        add(next.row_mut(0), &first);
        Lattice { nodes, next }
    }
}

/// A square table of truth values, all false at first.
struct Table {
    size: usize,
    cells: Vec<bool>,
}

impl Table {
    fn new(size: usize) -> Table {
        let cells = vec![false; size * size];
        Table { size, cells }
    }

    fn row(&self, i: usize) -> &[bool] {
        &self.cells[i * self.size..][..self.size]
    }

    fn row_mut(&mut self, i: usize) -> &mut [bool] {
        &mut self.cells[i * self.size..][..self.size]
    }
}

/// Makes true in `row` whatever is true in `more`.
fn add(row: &mut [bool], more: &[bool]) {
    for (old, new) in row.iter_mut().zip(more) {
        *old |= *new;
    }
}

/// Whether some choice of the given entries has a linking for the target.
fn completable(order: &Order, places: &[Vec<&Entry>], target: usize) -> bool {
    some_unlinked(order, &could_be_left(order, places), target)
}

/// Whether some of these simple types may be the unlinked one for the target.
fn some_unlinked(order: &Order, left: &[SimpleType], target: usize) -> bool {
    let fits = |simple: &SimpleType| order.may_be_unlinked(*simple, target);
    left.iter().any(fits)
}

/// The simple types that some choice of the given entries leaves when all
/// before each and all after it is linked inside.
fn could_be_left(order: &Order, places: &[Vec<&Entry>]) -> Vec<SimpleType> {
    let lattice = Lattice::new(places);
    let bridged = bridged(order, &lattice);
    let end = lattice.nodes.len() - 1;
    let left = |i: usize| match lattice.nodes[i] {
        Node::Simple(simple) if bridged.row(0)[i] && bridged.row(i)[end] => Some(simple),
        _ => None,
    };
    (0..end).filter_map(left).collect()
}

/// In row i and column j: on some path from node i to node j all that stands
/// strictly between them is linked inside. Rows are made from the last to the
/// first; a row needs only those of later nodes.
fn bridged(order: &Order, lattice: &Lattice) -> Table {
    let size = lattice.nodes.len();
    let mut bridged = Table::new(size);
    // Nodes i and j can be the ends of a link.
    let mut links = Table::new(size);
    // Some node right after node i can be linked with node j.
    let mut hops = Table::new(size);
    for i in (0..size).rev() {
        for x in (i + 1..size).filter(|x| lattice.next.row(i)[*x]) {
            add(hops.row_mut(i), links.row(x));
        }
        // Links one behind another from node i on: where the last can end.
        let mut reached = vec![false; size];
        reached[i] = true;
        for last in i..size {
            if reached[last] {
                add(&mut reached, hops.row(last));
                add(bridged.row_mut(i), lattice.next.row(last));
            }
        }
        for j in i + 1..size {
            let contract = nodes_contract(order, lattice.nodes[i], lattice.nodes[j]);
            links.row_mut(i)[j] = contract && bridged.row(i)[j];
        }
    }
    bridged
}

fn nodes_contract(order: &Order, earlier: Node, later: Node) -> bool {
    match (earlier, later) {
        (Node::Simple(earlier), Node::Simple(later)) => order.contracts(earlier, later),
        _ => false,
    }
}

// The linking of a string

/// The linking for the target whose partner list is smallest at the first
/// difference, with positions counted from 0; the unlinked position has its own
/// number.
fn first_linking(order: &Order, string: &[SimpleType], target: usize) -> Option<Vec<usize>> {
    let m = string.len();
    let linked = linked_stretches(order, string);
    let unlinked = |i: usize| order.may_be_unlinked(string[i], target);
    // Positions from i on hold the unlinked one, and the others can be linked.
    let finishes = |i: usize| (i..m).any(|u| linked[i][u] && unlinked(u) && linked[u + 1][m]);

    let mut partners = vec![None; m];
    let mut unlinked_to_come = true;
    for i in 0..m {
        if partners[i].is_some() {
            continue;
        }
        // Whatever is linked behind i has a partner before i: a link around i.
        let stop = (i..m).find(|j| partners[*j].is_some()).unwrap_or(m);
        let holds_unlinked = stop == m && unlinked_to_come;
        if holds_unlinked && unlinked(i) && linked[i + 1][m] {
            partners[i] = Some(i);
            unlinked_to_come = false;
            continue;
        }
        let rest = |p: usize| match holds_unlinked {
            true => finishes(p + 1),
            false => linked[p + 1][stop],
        };
        let allowed =
            |p: &usize| order.contracts(string[i], string[*p]) && linked[i + 1][*p] && rest(*p);
        let partner = (i + 1..stop).find(allowed)?;
        partners[i] = Some(partner);
        partners[partner] = Some(i);
    }
    match unlinked_to_come {
        true => None,
        false => partners.into_iter().collect(),
    }
}

/// `linked[from][to]`: the positions from `from` up to but not including `to`
/// can all be linked inside.
fn linked_stretches(order: &Order, string: &[SimpleType]) -> Vec<Vec<bool>> {
    let m = string.len();
    let mut linked = vec![vec![false; m + 1]; m + 1];
    for from in (0..=m).rev() {
        linked[from][from] = true;
        for to in from + 2..=m {
            linked[from][to] = (from + 1..to).any(|partner| {
                order.contracts(string[from], string[partner])
                    && linked[from + 1][partner]
                    && linked[partner + 1][to]
            });
        }
    }
    linked
}
