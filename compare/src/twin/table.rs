//! Which stretches of one string vanish. The string is lent as the numbers that hold its simple types; for each j the table has, as a
//! row of bits, the places from which the stretch up to j vanishes. It grows with the string, by one simple type at a time.
use super::figures::limits::{ROW_BITS, ROW_WORDS};
use super::pregroup;
use super::rows::{self, Row};

/// The places before k that the simple type at k may close: they could contract, and what stands between them vanishes.
fn closed_by(order: &[u64], string: &[u16], table: &[u64], k: usize) -> Row {
    let mut words = [0; ROW_WORDS];
    let mut j = rows::next_member(table, k, 1);
    while j < ROW_BITS {
        let may = pregroup::may_contract(order, string[j - 1], string[k]);
        rows::put_where(&mut words, j - 1, may);
        j = rows::next_member(table, k, j + 1);
    }
    Row { words }
}

/// Makes row 0: of the empty string the empty stretch vanishes.
pub fn begin(table: &mut [u64]) {
    rows::store(table, 0, rows::put(rows::empty(), 0));
}

/// Makes the row behind k, where the rows up to k are right for the string of the first k simple types: the empty stretch, and what stands
/// before each place that the simple type at k may close. What is returned are these places.
pub fn extend(order: &[u64], string: &[u16], k: usize, table: &mut [u64]) -> Row {
    let closed = closed_by(order, string, table, k);
    let own = rows::put(rows::empty(), k + 1);
    rows::store(table, k + 1, rows::unite_all(own, table, closed));
    closed
}
