//! The entries of a word laid out: each type on nodes, each entry in a slot of the word's boundary, in lent lists.
use super::book::{entry_type, wide_number};
use super::figures::limits::MAX_ENTRY_SIMPLES;
use super::graph::{simple_node, slot_of};
use super::names::Names;
use super::pregroup::{hold, EXPONENT_BIAS};

/// How far the lists are filled: the next node, the next slot, and whether the word at hand has a slot with an empty type.
#[derive(Clone, Copy)]
pub struct Place {
    pub node: usize,
    pub slot: usize,
    pub seen: bool,
}

/// The byte of the least exponent, -8, which is held as 0.
const LEAST: u8 = 248;

/// An exponent of the book, a byte in two's complement, as it is held: raised, so that it is never negative.
fn raise(exponent: u8) -> u8 {
    if exponent < LEAST {
        exponent + EXPONENT_BIAS
    } else {
        exponent - LEAST
    }
}

/// A simple type of the book as it is held: a type number and an exponent, a byte each.
fn hold_simple(base: u8, exponent: u8) -> u16 {
    hold(base, raise(exponent))
}

/// Lays the simple types of an entry from `node` on, from the last to the first, each leading to the one behind it and the last to the
/// boundary. The node where the type begins is returned: for an empty one the boundary.
fn lay_type(part: &[u8], node: usize, boundary: usize, nodes: &mut [u64]) -> usize {
    let mut first = boundary;
    for (i, pair) in part.chunks_exact(2).enumerate().rev() {
        let at = node + i;
        nodes[at] = simple_node(hold_simple(pair[0], pair[1]), first);
        first = at;
    }
    first
}

/// Gives an entry a slot and lays its type, but for a second empty type of a word.
fn lay_slot(
    part: &[u8],
    number: usize,
    boundary: usize,
    p: Place,
    nodes: &mut [u64],
    slots: &mut [u64],
) -> Place {
    let empty = part.is_empty();
    if empty && p.seen {
        return p;
    }
    let first = lay_type(part, p.node, boundary, nodes);
    slots[p.slot] = slot_of(first, number);
    Place {
        node: p.node + part.len() / 2,
        slot: p.slot + 1,
        seen: empty || p.seen,
    }
}

/// Lays the entries of a thread, in their order, before the boundary behind the word.
pub fn lay_entries(
    book: &[u8],
    names: &Names,
    entries: &[u16],
    same: &[u16],
    first: usize,
    boundary: usize,
    p: Place,
    nodes: &mut [u64],
    slots: &mut [u64],
) -> Place {
    let mut place = p;
    let mut i = first;
    while i < entries.len() {
        let mut written = [[0; 2]; MAX_ENTRY_SIMPLES];
        let part = entry_type(book, names, wide_number(entries[i]), &mut written);
        place = lay_slot(part, i, boundary, place, nodes, slots);
        i = wide_number(same[i]);
    }
    place
}
