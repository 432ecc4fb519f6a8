//! The graph of a line. A node is one number of four parts: its simple type, the node behind it, the first of its slots and the one behind
//! its last; a boundary has slots and no node behind it. A slot is one number of two: the node that it enters, and its entry's number.

/// What a part is multiplied by, for the second, the third and the fourth.
const SECOND: u64 = 1 << 16;
const THIRD: u64 = 1 << 32;
const FOURTH: u64 = 1 << 48;

/// A simple type with the node behind it.
#[inline]
pub fn simple_node(simple: u16, next: usize) -> u64 {
    simple as u64 + SECOND * next as u64
}

/// A boundary, with the first of its slots and the one behind its last.
#[inline]
pub fn boundary_node(from: usize, to: usize) -> u64 {
    THIRD * (from as u64 + SECOND * to as u64)
}

/// A slot: the node that it enters, and its entry's number.
#[inline]
pub fn slot_of(node: usize, number: usize) -> u64 {
    node as u64 + SECOND * number as u64
}

/// The simple type of node u.
#[inline]
pub fn simple_at(nodes: &[u64], u: usize) -> u16 {
    (nodes[u] % SECOND) as u16
}

/// The node behind node u, or 0 where that is a boundary.
#[inline]
pub fn next_at(nodes: &[u64], u: usize) -> usize {
    (nodes[u] / SECOND % SECOND) as usize
}

/// The first slot of boundary u.
#[inline]
pub fn from_at(nodes: &[u64], u: usize) -> usize {
    (nodes[u] / THIRD % SECOND) as usize
}

/// The slot behind the last one of boundary u.
#[inline]
pub fn to_at(nodes: &[u64], u: usize) -> usize {
    (nodes[u] / FOURTH % SECOND) as usize
}

/// The node that slot s enters.
#[inline]
pub fn entered_at(slots: &[u64], s: usize) -> usize {
    (slots[s] % SECOND) as usize
}

/// The number of the entry of slot s.
#[inline]
pub fn number_at(slots: &[u64], s: usize) -> u16 {
    (slots[s] / SECOND % SECOND) as u16
}
