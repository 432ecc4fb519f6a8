//! The first target that the chart of a line reaches: the first that has a reading.
use super::layout::end_at;
use super::rows::member;

/// The first of so many targets whose end the chart reaches from node 0, or their number where it reaches none.
pub fn first_target(chart: &[u64], last: usize, count: usize) -> usize {
    (0..count)
        .find(|&t| member(chart, 0, end_at(last, t)))
        .unwrap_or(count)
}
