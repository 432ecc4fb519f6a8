//! What a candidate costs by a model: the steps of the reader's loops are counted by their kinds, and each kind has a weight, the
//! instructions that a step takes. The loops are those of the twin, shortened: all types are equal, so that exponents alone decide.
use super::candidate::{Candidate, Entry};
use super::steps::{Step, Steps};
use super::weights::WEIGHTS;
use crate::twin::figures::limits::{ROW_BITS, ROW_WORDS};
use crate::twin::layout::end_at;
use crate::twin::rows::{
    empty, member, next_member, put, put_in, store, unite, unite_all, words_of, Row,
};

/// How exponents from -8 to 8, and those beside them, are numbered.
const EXPONENTS: usize = 19;

fn number(exponent: i8) -> usize {
    (exponent + 9) as usize
}

/// What a candidate costs, in instructions.
pub fn cost(candidate: &Candidate) -> f64 {
    count(candidate).cost(&WEIGHTS)
}

/// The steps that reading a candidate takes.
pub fn count(candidate: &Candidate) -> Steps {
    read(candidate).steps
}

/// Reads a candidate. Where it has no reading, the string stays empty.
pub fn read(candidate: &Candidate) -> Reading {
    let mut reading = Reading::new(candidate);
    reading.fill();
    if member(&reading.chart, 0, reading.end) {
        reading.choose();
        reading.link();
    }
    reading
}

/// A line's graph with its chart, the chosen string with its table and its needs, and the steps so far.
pub struct Reading {
    steps: Steps,
    exponents: Vec<i8>,
    /// The node behind each, 0 for a boundary.
    nexts: Vec<usize>,
    /// The nodes that the slots of a boundary enter.
    enters: Vec<Vec<usize>>,
    /// The simple nodes of each exponent.
    nodes: [Row; EXPONENTS],
    /// The end of the first target. All are equal: it has a reading where any has.
    end: usize,
    chart: Vec<u64>,
    /// The exponents of the chosen string, with the target's behind it.
    pub string: Vec<i8>,
    /// The places behind simple types of each exponent.
    places: [Row; EXPONENTS],
    table: Vec<u64>,
    needs: Vec<u64>,
}

/// Row u of rows.
fn row_at(rows: &[u64], u: usize) -> Row {
    unite(empty(), rows, u)
}

/// The members of both rows.
fn common(row: &[u64], other: &Row) -> Row {
    Row {
        words: std::array::from_fn(|k| row[k] & other.words[k]),
    }
}

fn size(row: &[u64]) -> usize {
    row.iter().map(|word| word.count_ones() as usize).sum()
}

/// The members of a row, in their order.
fn members(row: Row) -> impl Iterator<Item = usize> {
    let next = move |from| Some(next_member(&row.words, 0, from)).filter(|&v| v < ROW_BITS);
    std::iter::successors(next(0), move |&v| next(v + 1))
}

impl Reading {
    fn new(candidate: &Candidate) -> Reading {
        let mut reading = Reading {
            steps: Steps::NONE,
            exponents: Vec::new(),
            nexts: Vec::new(),
            enters: Vec::new(),
            nodes: [empty(); EXPONENTS],
            end: 0,
            chart: Vec::new(),
            string: Vec::new(),
            places: [empty(); EXPONENTS],
            table: Vec::new(),
            needs: Vec::new(),
        };
        reading.steps.add(Step::Call, 1);
        reading.look_up(candidate);
        reading.lay_out(candidate);
        reading.chart = vec![0; ROW_WORDS * reading.nexts.len()];
        reading
    }

    fn boundary(&mut self) {
        self.exponents.push(0);
        self.nexts.push(0);
        self.enters.push(Vec::new());
    }

    /// A simple node that leads to another.
    fn simple(&mut self, exponent: i8, next: usize) {
        put_in(&mut self.nodes[number(exponent)].words, self.nexts.len());
        self.exponents.push(exponent);
        self.nexts.push(next);
        self.enters.push(Vec::new());
    }

    /// Each word is sought on the thread of its key up to its first entry, and on to the thread's end the first time that it stands in
    /// the line.
    fn look_up(&mut self, candidate: &Candidate) {
        let entries = candidate.entries();
        for (place, &word) in candidate.line.iter().enumerate() {
            let others = |entries: &[(usize, &[i8])]| match candidate.strangers {
                Some(_) => entries.iter().filter(|entry| entry.0 != word).count(),
                None => 0,
            };
            let first = entries.iter().position(|entry| entry.0 == word);
            let (before, from) = entries.split_at(first.expect("an entry of each word"));
            let found = from.iter().filter(|entry| entry.0 == word).count();
            self.steps.add(Step::Word, 1);
            self.steps.add(Step::Pass, others(before));
            self.steps.add(Step::Found, found);
            if !candidate.line[..place].contains(&word) {
                self.steps.add(Step::Pass, others(from));
                self.steps.add(Step::Join, found);
            }
        }
    }

    fn lay_out(&mut self, candidate: &Candidate) {
        for &word in &candidate.line {
            self.lay_word(&candidate.words[word]);
        }
        self.lay_goals(candidate.targets);
    }

    fn lay_word(&mut self, entries: &[Entry]) {
        let start = self.nexts.len();
        let behind = start + 1 + entries.iter().map(Vec::len).sum::<usize>();
        self.boundary();
        for entry in entries {
            let first = self.nexts.len();
            self.enters[start].push(if entry.is_empty() { behind } else { first });
            self.steps.add(Step::Simple, entry.len());
            for (k, &exponent) in entry.iter().enumerate() {
                let last = k + 1 == entry.len();
                self.simple(exponent, if last { behind } else { first + k + 1 });
            }
        }
    }

    /// The boundary behind the last word, with a slot for each target; a target has a simple node and an end of its own.
    fn lay_goals(&mut self, targets: usize) {
        let last = self.nexts.len();
        self.end = end_at(last, 0);
        self.boundary();
        for _ in 0..targets {
            let goal = self.nexts.len();
            self.enters[last].push(goal);
            self.simple(1, goal + 1);
            self.boundary();
        }
        self.steps.add(Step::Target, targets);
    }

    fn fill(&mut self) {
        for u in (0..self.nexts.len()).rev() {
            let row = match self.nexts[u] {
                0 => self.boundary_row(u),
                behind => self.simple_row(u, behind),
            };
            store(&mut self.chart, u, row);
        }
    }

    fn boundary_row(&mut self, u: usize) -> Row {
        self.steps.add(Step::Enter, self.enters[u].len());
        let own = put(empty(), u);
        let enters = self.enters[u].iter();
        enters.fold(own, |row, &node| unite(row, &self.chart, node))
    }

    fn simple_row(&mut self, u: usize, behind: usize) -> Row {
        let fits = self.fitting(u, Step::ChartMember, Step::ChartJoin);
        self.steps.add(Step::ChartWord, ROW_WORDS - behind / 64);
        let own = put(empty(), u);
        members(fits).fold(own, |row, y| unite(row, &self.chart, self.nexts[y]))
    }

    /// The members of the chart's row behind the simple node u that its simple type may contract with. A member walked and one that fits
    /// are steps of the kinds.
    fn fitting(&mut self, u: usize, walk: Step, fit: Step) -> Row {
        let walked = words_of(&self.chart, self.nexts[u]);
        let fits = common(walked, &self.nodes[number(self.exponents[u] + 1)]);
        self.steps.add(walk, size(walked));
        self.steps.add(fit, size(&fits.words));
        fits
    }

    fn choose(&mut self) {
        self.steps.add(Step::Choice, 1);
        self.table.extend(put(empty(), 0).words);
        self.needs.extend(put(empty(), self.end).words);
        let mut u = 0;
        while u != self.end {
            if self.nexts[u] == 0 {
                u = self.first_slot(u);
            } else {
                self.grow(u);
                u = self.nexts[u];
            }
        }
    }

    /// The node that the first slot of a boundary enters from which the string is finished.
    fn first_slot(&mut self, u: usize) -> usize {
        for slot in 0..self.enters[u].len() {
            let node = self.enters[u][slot];
            if self.meets(node, Step::SlotWord) {
                return node;
            }
        }
        unreachable!("a line that reads has a slot that fits");
    }

    /// Whether row u of the chart and the last row of the needs have a member in common. Each word compared is a step of the kind.
    fn meets(&mut self, u: usize, word: Step) -> bool {
        let reached = words_of(&self.chart, u);
        let needed = words_of(&self.needs, self.string.len());
        let met = (0..ROW_WORDS).find(|&k| reached[k] & needed[k] != 0);
        self.steps.add(word, met.map_or(ROW_WORDS, |k| k + 1));
        met.is_some()
    }

    /// Adds the simple type of node u to the string, and the rows for it.
    fn grow(&mut self, u: usize) {
        let exponent = self.exponents[u];
        let closers = self.partners(u);
        let closed = self.closed_by(exponent);
        self.string.push(exponent);
        let n = self.string.len();
        put_in(&mut self.places[number(exponent)].words, n);
        let vanishing = unite_all(put(empty(), n), &self.table, closed);
        self.table.extend(vanishing.words);
        let needed = unite_all(closers, &self.needs, closed);
        self.needs.extend(needed.words);
        self.steps.add(Step::Place, 1);
        self.steps.add(Step::Closed, size(&closed.words));
    }

    /// The nodes that may close the link of the simple node u.
    fn partners(&mut self, u: usize) -> Row {
        let mut partners = empty();
        for y in members(self.fitting(u, Step::PartnerMember, Step::PartnerFit)) {
            if self.meets(self.nexts[y], Step::MeetWord) {
                put_in(&mut partners.words, y);
            }
        }
        self.steps.add(Step::Meet, size(&partners.words));
        partners
    }

    /// The places that a simple type behind the string may close. Member 0 of the table's row is not walked.
    fn closed_by(&mut self, exponent: i8) -> Row {
        let walked = words_of(&self.table, self.string.len());
        let fits = common(walked, &self.places[number(exponent - 1)]);
        let unwalked = usize::from(member(walked, 0, 0));
        self.steps.add(Step::TableMember, size(walked) - unwalked);
        let mut closed = empty();
        for j in members(fits) {
            put_in(&mut closed.words, j - 1);
        }
        closed
    }

    /// Links the chosen string but for the target's simple type behind it.
    fn link(&mut self) {
        let m = self.string.len() - 1;
        let stays = common(words_of(&self.table, m), &self.places[number(0)]);
        let ends = members(stays).fold(empty(), |row, j| unite(row, &self.table, j - 1));
        let mut i = 0;
        while !member(&stays.words, 0, i + 1) {
            let k = self.nearest(ends, i);
            self.link_within(i + 1, k);
            i = k + 1;
        }
        self.link_within(i + 1, m);
    }

    fn link_within(&mut self, i: usize, j: usize) {
        if i < j {
            let k = self.nearest(row_at(&self.table, j), i);
            self.link_within(i + 1, k);
            self.link_within(k + 1, j);
        }
    }

    /// The nearest place that i may be linked to such that the one behind it is in the row.
    fn nearest(&mut self, ends: Row, i: usize) -> usize {
        for j in members(ends).skip_while(|&j| j < i + 2) {
            self.steps.add(Step::NearestMember, 1);
            if self.string[j - 1] == self.string[i] + 1 && member(&self.table, j - 1, i + 1) {
                return j - 1;
            }
        }
        unreachable!("a string that reads has a partner for each simple type");
    }
}
