//! The first choice of a line: entry by entry, by the rows of the chart, the table of the string that is chosen so far, and for each of
//! its places a row of the nodes that are needed there.
use super::bits;
use super::figures::limits::{ROW_BITS, ROW_WORDS};
use super::graph::{entered_at, from_at, next_at, simple_at, to_at};
use super::pregroup;
use super::rows::{self, Row};
use super::table;

/// Whether row u of the chart and row n of the needs have a member in common in word k.
fn meets_in(chart: &[u64], u: usize, needs: &[u64], n: usize, k: usize) -> bool {
    bits::both(chart[ROW_WORDS * u + k], needs[ROW_WORDS * n + k]) != 0
}

/// Whether row u of the chart and row n of the needs have a member in common.
fn meets(chart: &[u64], u: usize, needs: &[u64], n: usize) -> bool {
    let (reached, needed) = (rows::words_of(chart, u), rows::words_of(needs, n));
    reached
        .iter()
        .zip(needed)
        .any(|(&a, &b)| bits::both(a, b) != 0)
}

/// Whether y is simple, x may contract with it, and what is needed after n places can be reached from behind it.
fn links_to(
    order: &[u64],
    nodes: &[u64],
    chart: &[u64],
    needs: &[u64],
    n: usize,
    x: u16,
    y: usize,
) -> bool {
    if !pregroup::may_contract(order, x, simple_at(nodes, y)) {
        return false;
    }
    let next = next_at(nodes, y);
    next != 0 && meets(chart, next, needs, n)
}

/// The nodes that the simple node u, chosen behind n places, may be linked to. The first member of the row behind u is the node behind u.
fn partners(order: &[u64], nodes: &[u64], chart: &[u64], needs: &[u64], n: usize, u: usize) -> Row {
    let behind = next_at(nodes, u);
    let x = simple_at(nodes, u);
    let mut words = [0; ROW_WORDS];
    let mut y = behind;
    while y < ROW_BITS {
        let links = links_to(order, nodes, chart, needs, n, x, y);
        rows::put_where(&mut words, y, links);
        y = rows::next_member(chart, behind, y + 1);
    }
    Row { words }
}

/// Makes the rows of the empty string: the end is needed.
fn start(end: usize, table: &mut [u64], needs: &mut [u64]) {
    table::begin(table);
    rows::store(needs, 0, rows::put(rows::empty(), end));
}

/// Makes the rows of one simple type more, that of node u at place n. What is needed behind it: a node that it may be linked to; or, where
/// it closes a place, what was needed there.
fn grow(
    order: &[u64],
    nodes: &[u64],
    chart: &[u64],
    u: usize,
    string: &[u16],
    n: usize,
    table: &mut [u64],
    needs: &mut [u64],
) {
    let partners = partners(order, nodes, chart, needs, n, u);
    let closed = table::extend(order, string, n, table);
    rows::store(needs, n + 1, rows::unite_all(partners, needs, closed));
}

/// The first slot from whose node the string of n places is finished: a search over slots and over the nodes that are needed, which part
/// the rest into what vanishes and what the open link closes on; 64 nodes at a time, and left from inside once one is found.
fn first_slot(
    slots: &[u64],
    chart: &[u64],
    needs: &[u64],
    n: usize,
    from: usize,
    to: usize,
) -> usize {
    let mut s = from;
    'search: while s < to {
        let node = entered_at(slots, s);
        let mut k = 0;
        while k < ROW_WORDS {
            if meets_in(chart, node, needs, n, k) {
                break 'search;
            }
            k += 1;
        }
        s += 1;
    }
    s
}

/// How many words the choice has, and how many simple types.
pub struct Chosen {
    pub words: usize,
    pub places: usize,
}

/// The first choice of a line that reads for the target of an end: the slot of each word into `chosen`, its simple types with the target
/// behind them into `string`, and the table of that string into `table`. `needs` is for rows on the way.
pub fn choose(
    order: &[u64],
    nodes: &[u64],
    slots: &[u64],
    chart: &[u64],
    end: usize,
    string: &mut [u16],
    chosen: &mut [u16],
    table: &mut [u64],
    needs: &mut [u64],
) -> Chosen {
    start(end, table, needs);
    let mut u = 0;
    let mut words = 0;
    let mut places = 0;
    while u != end {
        let next = next_at(nodes, u);
        if next == 0 {
            let (from, to) = (from_at(nodes, u), to_at(nodes, u));
            let slot = first_slot(slots, chart, needs, places, from, to);
            chosen[words] = slot as u16;
            words += 1;
            u = entered_at(slots, slot);
        } else {
            string[places] = simple_at(nodes, u);
            grow(order, nodes, chart, u, string, places, table, needs);
            places += 1;
            u = next;
        }
    }
    Chosen { words, places }
}
