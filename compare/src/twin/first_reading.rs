//! The first reading of words that are charted: the first choice up to the target that is reached, with its first linking, written as an
//! answer.
use super::answer::{answer_length, write_answer};
use super::choice::choose;
use super::figures::limits::{MAX_NODES, MAX_PLACES, TABLE_WORDS};
use super::figures::refusals::BUFFER_TOO_SHORT;
use super::layout::end_at;
use super::reader::Answer;

/// Finds the first choice up to the end of target t, which the chart reaches as the first, and writes its first linking.
pub fn write_reading(
    order: &[u64],
    nodes: &[u64],
    slots: &[u64],
    chart: &[u64],
    targets: &[u8],
    last: usize,
    t: usize,
    answer: &mut [u16],
) -> Answer {
    let end = end_at(last, t);
    let mut string = [0u16; MAX_PLACES];
    let mut chosen = [0u16; MAX_NODES];
    let mut table = [0u64; TABLE_WORDS];
    let mut needs = [0u64; TABLE_WORDS];
    let choice = choose(
        order,
        nodes,
        slots,
        chart,
        end,
        &mut string,
        &mut chosen,
        &mut table,
        &mut needs,
    );
    let words = choice.words - 1;
    let m = choice.places - 1;
    let needed = answer_length(words, m);
    if answer.len() < needed {
        return Err((BUFFER_TOO_SHORT, needed));
    }
    let (string, chosen) = (&string[..m], &chosen[..words]);
    write_answer(order, string, &table, targets[t], t, slots, chosen, answer);
    Ok(needed)
}
