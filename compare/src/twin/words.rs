//! Words that are looked up are read, or only asked whether they have a reading.
use super::chart::fill;
use super::figures::limits::MAX_NODES;
use super::figures::refusals::NO_READING;
use super::first_reading::write_reading;
use super::layout::{lay_out, nodes_with};
use super::names::Names;
use super::reach::first_target;
use super::reader::Answer;

/// Reads words that are looked up: `firsts` has the first entry of each, and `same` leads to the others. They are laid out as a graph, and
/// its chart tells the first target that has a reading. Where the reading is not wanted whole, it is only told whether there is one: it is
/// then answered with no values, and nothing is written.
fn read_or_ask(
    book: &[u8],
    names: &Names,
    entries: &[u16],
    same: &[u16],
    firsts: &[u16],
    order: &[u64],
    targets: &[u8],
    chart: &mut [u64],
    whole: bool,
    answer: &mut [u16],
) -> Answer {
    let mut nodes = [0u64; MAX_NODES];
    let mut slots = [0u64; MAX_NODES];
    let last = lay_out(
        book, names, entries, same, firsts, targets, &mut nodes, &mut slots,
    );
    let nodes = &nodes[..nodes_with(last, targets.len())];
    fill(order, nodes, &slots, chart);
    let t = first_target(chart, last, targets.len());
    if t == targets.len() {
        return Err((NO_READING, 0));
    }
    if whole {
        return write_reading(order, nodes, &slots, chart, targets, last, t, answer);
    }
    Ok(0)
}

/// Reads words that are looked up.
pub fn read_words(
    book: &[u8],
    names: &Names,
    entries: &[u16],
    same: &[u16],
    firsts: &[u16],
    order: &[u64],
    targets: &[u8],
    chart: &mut [u64],
    answer: &mut [u16],
) -> Answer {
    read_or_ask(
        book, names, entries, same, firsts, order, targets, chart, true, answer,
    )
}

/// Whether words that are looked up have a reading, for any target.
pub fn has_reading(
    book: &[u8],
    names: &Names,
    entries: &[u16],
    same: &[u16],
    firsts: &[u16],
    order: &[u64],
    targets: &[u8],
    chart: &mut [u64],
) -> bool {
    let nothing = &mut [];
    let asked = read_or_ask(
        book, names, entries, same, firsts, order, targets, chart, false, nothing,
    );
    asked.is_ok()
}
