//! Lays a line out whose words are looked up: each word a boundary, then the simple types of its entries, and behind the last word the
//! targets.
use super::book::wide_number;
use super::find::tally;
use super::graph::{boundary_node, simple_node, slot_of};
use super::names::Names;
use super::pregroup::{hold, EXPONENT_BIAS};
use super::slots::{lay_entries, Place};

/// The node at which target t ends, behind this last boundary.
#[inline]
pub fn end_at(last: usize, t: usize) -> usize {
    last + 2 + 2 * t
}

/// How many nodes a line with this last boundary and so many targets has.
#[inline]
pub fn nodes_with(last: usize, targets: usize) -> usize {
    last + 1 + 2 * targets
}

/// Lays a word at the boundary of a place: its entries, from the first one on, and the range of its slots. The place behind it is at the
/// next boundary, which is known beforehand from the number of simple types.
fn lay_word(
    book: &[u8],
    names: &Names,
    entries: &[u16],
    same: &[u16],
    first: usize,
    p: Place,
    nodes: &mut [u64],
    slots: &mut [u64],
) -> Place {
    let boundary = p.node + 1 + tally(book, entries, same, first);
    let inside = Place {
        node: p.node + 1,
        slot: p.slot,
        seen: false,
    };
    let last = lay_entries(
        book, names, entries, same, first, boundary, inside, nodes, slots,
    );
    nodes[p.node] = boundary_node(p.slot, last.slot);
    Place {
        node: boundary,
        slot: last.slot,
        seen: false,
    }
}

/// Lays all words of a line, given by the first entry of each, from its boundary to the next.
fn lay_words(
    book: &[u8],
    names: &Names,
    entries: &[u16],
    same: &[u16],
    firsts: &[u16],
    nodes: &mut [u64],
    slots: &mut [u64],
) -> Place {
    let mut place = Place {
        node: 0,
        slot: 0,
        seen: false,
    };
    for &first in firsts {
        let first = wide_number(first);
        place = lay_word(book, names, entries, same, first, place, nodes, slots);
    }
    place
}

/// Lays a target at a node: the slot leads to its right adjoint, and that to its end, the node behind it.
fn lay_goal(target: u8, node: usize, slot: usize, nodes: &mut [u64], slots: &mut [u64]) {
    let end = node + 1;
    slots[slot] = slot_of(node, 0);
    nodes[node] = simple_node(hold(target, EXPONENT_BIAS + 1), end);
    nodes[end] = boundary_node(0, 0);
}

/// Lays the targets behind the last word: a boundary with a slot for each, in their order, and for each its right adjoint and an end of
/// its own.
fn lay_goals(targets: &[u8], p: Place, nodes: &mut [u64], slots: &mut [u64]) {
    for (t, &target) in targets.iter().enumerate() {
        lay_goal(target, p.node + 1 + 2 * t, p.slot + t, nodes, slots);
    }
    nodes[p.node] = boundary_node(p.slot, p.slot + targets.len());
}

/// Lays a line out and returns its last boundary: a graph that goes up, from node 0 that of the line's words and the targets. The words
/// are looked up before: `firsts` has the first entry of each, and `same` leads to the others. What the lists held means nothing.
pub fn lay_out(
    book: &[u8],
    names: &Names,
    entries: &[u16],
    same: &[u16],
    firsts: &[u16],
    targets: &[u8],
    nodes: &mut [u64],
    slots: &mut [u64],
) -> usize {
    let last = lay_words(book, names, entries, same, firsts, nodes, slots);
    lay_goals(targets, last, nodes, slots);
    last.node
}
