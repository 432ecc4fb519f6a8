//! The order of a book: the reflexive and transitive closure of its pairs, as 64 rows of 64 bits. Bit q of row p says p ≤ q.
use super::bits;
use super::figures::limits::MAX_TYPES;

/// A closed order. A row past the last type holds nothing.
pub struct Order {
    pub rows: [u64; MAX_TYPES],
}

/// All that stands at or above p: a walk along the pairs, with the types passed in `seen` and those ahead in `todo`.
fn reach(direct: &[u64; MAX_TYPES], p: u8) -> u64 {
    let mut seen = 0;
    let mut todo = bits::with(0, p);
    while todo != 0 {
        let q = bits::lowest(todo);
        seen = bits::with(seen, q);
        todo = bits::minus(bits::union(todo, direct[q as usize]), seen);
    }
    seen
}

/// The closure of a book's pairs, which are given as rows.
pub fn close(direct: &[u64; MAX_TYPES], types: usize) -> Order {
    let mut rows = [0u64; MAX_TYPES];
    for (p, row) in rows[..types].iter_mut().enumerate() {
        *row = reach(direct, p as u8);
    }
    Order { rows }
}

/// How many pairs p ≤ q the order has, p ≤ p included.
pub fn count_pairs(order: &Order) -> u64 {
    order.rows.iter().map(|&row| bits::count(row)).sum()
}
