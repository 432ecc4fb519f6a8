//! Which stretches of a line vanish. A line is a graph whose nodes are numbered from left to right; for each node the chart holds, as
//! a row of bits, the nodes to which some path spells a string that vanishes.
use super::figures::limits::ROW_BITS;
use super::graph::{entered_at, from_at, next_at, simple_at, to_at};
use super::pregroup;
use super::rows::{self, Row};

/// The row of boundary u: itself, and what the rows of the nodes have that its slots enter.
fn boundary_row(slots: &[u64], chart: &[u64], u: usize, from: usize, to: usize) -> Row {
    let mut row = rows::put(rows::empty(), u);
    for s in from..to {
        row = rows::unite(row, chart, entered_at(slots, s));
    }
    row
}

/// The row with that of the node behind y, where y is simple and x may contract with it.
fn join_row(order: &[u64], nodes: &[u64], chart: &[u64], row: Row, x: u16, y: usize) -> Row {
    if !pregroup::may_contract(order, x, simple_at(nodes, y)) {
        return row;
    }
    let next = next_at(nodes, y);
    if next == 0 {
        return row;
    }
    rows::unite(row, chart, next)
}

/// The row of the simple node u: itself, and what it can be linked past. The first member of the row behind u is the node behind u.
fn simple_row(order: &[u64], nodes: &[u64], chart: &[u64], u: usize) -> Row {
    let behind = next_at(nodes, u);
    let x = simple_at(nodes, u);
    let mut row = rows::put(rows::empty(), u);
    let mut y = behind;
    while y < ROW_BITS {
        row = join_row(order, nodes, chart, row, x, y);
        y = rows::next_member(chart, behind, y + 1);
    }
    row
}

/// Fills the row of each node, from the last one down.
pub fn fill(order: &[u64], nodes: &[u64], slots: &[u64], chart: &mut [u64]) {
    for u in (0..nodes.len()).rev() {
        let row = if next_at(nodes, u) == 0 {
            boundary_row(slots, chart, u, from_at(nodes, u), to_at(nodes, u))
        } else {
            simple_row(order, nodes, chart, u)
        };
        rows::store(chart, u, row);
    }
}
