//! Writes an answer into the lent buffer of 16-bit numbers: the target's number, the number of words, the numbers of their entries, the
//! number of simple types, and their partners, which are found and written by `links`.
use super::figures::limits::ANSWER_HEAD;
use super::graph::number_at;
use super::links;

/// Where the target's number and the number of words stand.
const TARGET: usize = ANSWER_HEAD - 3;
const WORDS: usize = ANSWER_HEAD - 2;

/// How many values stand before the number of simple types, beside the entries.
const BEFORE_SIMPLES: usize = ANSWER_HEAD - 1;

/// How many values an answer has.
pub fn answer_length(words: usize, simples: usize) -> usize {
    ANSWER_HEAD + words + simples
}

/// Writes the target's number, the number of words and the number of the entry of each chosen slot.
fn write_entries(t: usize, slots: &[u64], chosen: &[u16], answer: &mut [u16]) {
    answer[TARGET] = t as u16;
    answer[WORDS] = chosen.len() as u16;
    for (value, &slot) in answer[BEFORE_SIMPLES..].iter_mut().zip(chosen) {
        *value = number_at(slots, slot as usize);
    }
}

/// Writes value number `at`.
fn write_count(answer: &mut [u16], at: usize, m: usize) {
    answer[at] = m as u16;
}

/// Writes the whole answer of the chosen slots, one a word, and of the string of their simple types, for the target that has number t.
pub fn write_answer(
    order: &[u64],
    string: &[u16],
    table: &[u64],
    target: u8,
    t: usize,
    slots: &[u64],
    chosen: &[u16],
    answer: &mut [u16],
) {
    let n = chosen.len();
    write_entries(t, slots, chosen, answer);
    write_count(answer, n + BEFORE_SIMPLES, string.len());
    links::first_linking(order, string, target, table, answer, n + ANSWER_HEAD);
}
