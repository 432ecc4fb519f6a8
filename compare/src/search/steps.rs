//! The kinds of steps that the reader's loops take, as the model counts them, and what a step of each kind costs.

/// A kind of step.
#[derive(Clone, Copy)]
pub enum Step {
    /// What each call takes for a full book; a word of the line.
    Call,
    Word,
    /// The look-up: an entry of another word passed on a key's thread, one put on the thread of its word.
    Pass,
    Join,
    /// The layout: an entry of a word's thread, which was tallied for the line and is again for the word; a simple type laid; a target.
    Found,
    Simple,
    Target,
    /// The chart: a row joined to that of a boundary; for a simple node, a word of the row walked, a member, one that is joined.
    Enter,
    ChartWord,
    ChartMember,
    ChartJoin,
    /// What each choice takes; a word of a slot's row compared with the needs.
    Choice,
    SlotWord,
    /// A place of the choice; for its partners, a member of the chart's row walked, one whose exponent fits, a word of the row behind that
    /// one compared with the needs, a row that meets them.
    Place,
    PartnerMember,
    PartnerFit,
    MeetWord,
    Meet,
    /// The table: a member of its row walked; a closed place, whose rows of the table and of the needs are joined to the new ones.
    TableMember,
    Closed,
    /// The linking: a member walked.
    NearestMember,
}

/// How many kinds there are.
pub const KINDS: usize = Step::NearestMember as usize + 1;

/// A number for each kind: how many steps there were, or what one costs.
#[derive(Clone, Copy)]
pub struct Steps(pub [f64; KINDS]);

impl Steps {
    pub const NONE: Steps = Steps([0.0; KINDS]);

    /// Counts so many steps.
    pub fn add(&mut self, step: Step, steps: usize) {
        self.0[step as usize] += steps as f64;
    }

    /// What these steps cost.
    pub fn cost(&self, weights: &Steps) -> f64 {
        self.0
            .iter()
            .zip(weights.0)
            .map(|(n, weight)| n * weight)
            .sum()
    }
}
