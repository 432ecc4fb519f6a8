//! What the readers return, in one form for all of them.

/// The number of a refusal and the value returned with it.
pub type Refusal = (u32, u64);

/// What reading a line with the words in its way returns: the number of values written, or a refusal, beside which stands, with 15
/// alone, the number whose bit k is set where the line without word k + 1 has a reading.
pub type InTheWay = Result<u64, (Refusal, Option<u32>)>;

/// What the check of an accepted book returns.
#[derive(Clone, Copy, Debug, PartialEq, Eq)]
pub struct Counts {
    pub types: u64,
    pub entries: u64,
    pub pairs: u64,
}
