//! The first linking of a string that reduces to the target, given the table of what vanishes: each position stays unlinked if it can,
//! and else takes the nearest partner that leaves the rest linkable. Partners count from 1.
use super::figures::limits::{ROW_BITS, ROW_WORDS};
use super::pregroup;
use super::rows::{self, Row};

/// Whether i may stay unlinked: its simple type may remain, and what stands behind it vanishes.
fn may_stay(order: &[u64], string: &[u16], target: u8, table: &[u64], i: usize) -> bool {
    if pregroup::may_remain(order, string[i], target) {
        return rows::member(table, string.len(), i + 1);
    }
    false
}

/// Whether i may be linked to k: they could contract, and what stands between them vanishes.
fn may_close(order: &[u64], string: &[u16], table: &[u64], i: usize, k: usize) -> bool {
    if pregroup::may_contract(order, string[i], string[k]) {
        return rows::member(table, k, i + 1);
    }
    false
}

/// The nearest k that i may be linked to such that k + 1 is in row e of `ends`; `ROW_BITS` where there is none.
fn nearest(
    order: &[u64],
    string: &[u16],
    table: &[u64],
    ends: &[u64],
    e: usize,
    i: usize,
) -> usize {
    let mut found = ROW_BITS;
    let mut j = rows::next_member(ends, e, i + 2);
    while j < found {
        if may_close(order, string, table, i, j - 1) {
            found = j - 1;
        }
        j = rows::next_member(ends, e, j + 1);
    }
    found
}

/// Writes i as its own partner.
fn write_stay(answer: &mut [u16], at: usize, i: usize) {
    answer[at + i] = (i + 1) as u16;
}

/// Writes i and k as partners of each other.
fn write_link(answer: &mut [u16], at: usize, i: usize, k: usize) {
    answer[at + i] = (k + 1) as u16;
    answer[at + k] = (i + 1) as u16;
}

/// The places that may stay unlinked.
fn staying(order: &[u64], string: &[u16], target: u8, table: &[u64]) -> Row {
    let m = string.len();
    let mut words = [0; ROW_WORDS];
    let mut j = rows::next_member(table, m, 1);
    while j < ROW_BITS {
        let may = pregroup::may_remain(order, string[j - 1], target);
        rows::put_where(&mut words, j - 1, may);
        j = rows::next_member(table, m, j + 1);
    }
    Row { words }
}

/// Writes the partners of the stretch from i up to j, which vanishes: each the nearest that leaves the rest vanishing.
fn link_within(
    order: &[u64],
    string: &[u16],
    table: &[u64],
    i: usize,
    j: usize,
    answer: &mut [u16],
    at: usize,
) {
    if i < j {
        let k = nearest(order, string, table, table, j, i);
        write_link(answer, at, i, k);
        link_within(order, string, table, i + 1, k, answer, at);
        link_within(order, string, table, k + 1, j, answer, at);
    }
}

/// Writes the partners of the string from i on, which reduces to the target. Row 0 of `ends` has the places from which it does.
fn link_from(
    order: &[u64],
    string: &[u16],
    target: u8,
    table: &[u64],
    ends: &[u64],
    i: usize,
    answer: &mut [u16],
    at: usize,
) {
    if may_stay(order, string, target, table, i) {
        write_stay(answer, at, i);
        link_within(order, string, table, i + 1, string.len(), answer, at);
    } else {
        let k = nearest(order, string, table, ends, 0, i);
        write_link(answer, at, i, k);
        link_within(order, string, table, i + 1, k, answer, at);
        link_from(order, string, target, table, ends, k + 1, answer, at);
    }
}

/// Writes the first linking of the string, which reduces to the target, into `answer` from `at` on: a partner for each simple type. The row
/// has the places from which the string reduces: what stands between such a place and one that may stay vanishes.
pub fn first_linking(
    order: &[u64],
    string: &[u16],
    target: u8,
    table: &[u64],
    answer: &mut [u16],
    at: usize,
) {
    let stays = staying(order, string, target, table);
    let row = rows::unite_all(rows::empty(), table, stays);
    link_from(order, string, target, table, &row.words, 0, answer, at);
}
