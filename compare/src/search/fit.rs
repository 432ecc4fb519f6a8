//! Fits the model's weights to instruction counts.
use super::candidate::Candidate;
use super::changes;
use super::model;
use super::starts::starts;
use super::steps::{Steps, KINDS};
use crate::random::Random;
use crate::twin::figures::limits::MAX_WORDS;

/// What little is added to each weight's own equation, so that there is one solution.
const LITTLE: f64 = 1e-5;

/// How many steps a candidate for the fit climbs, at most.
const STEPS: usize = 400;

/// An equation: a factor for each weight, and what they come to.
type Equation = [f64; KINDS + 1];

/// Candidates for a fit: each has climbed from a start, perhaps of a shorter line, on one kind of steps alone, so that all kinds vary.
pub fn spread(count: usize, seed: u64) -> Vec<Candidate> {
    (0..count)
        .map(|number| spread_one(&mut Random::for_case(seed, number as u64)))
        .collect()
}

fn spread_one(random: &mut Random) -> Candidate {
    let kind = random.below(KINDS);
    let mut here = random.pick(&starts()).clone();
    let dropped = random.below(MAX_WORDS);
    if random.chance(1, 2) {
        here.line.drain(..dropped);
        here.drop_unused();
    }
    let mut most = model::count(&here).0[kind];
    for _ in 0..random.below(STEPS) {
        let next = changes::changed(&here, random);
        if !next.is_within_limits() {
            continue;
        }
        let steps = model::count(&next).0[kind];
        if steps >= most {
            (here, most) = (next, steps);
        }
    }
    here
}

/// The weights with the least sum of squared errors over candidates and their instruction counts.
pub fn fit(candidates: &[Candidate], instructions: &[f64]) -> Steps {
    let counts: Vec<Steps> = candidates.iter().map(model::count).collect();
    let largest: [f64; KINDS] = std::array::from_fn(|i| {
        let of_kind = counts.iter().map(|Steps(counts)| counts[i]);
        of_kind.fold(1.0, f64::max)
    });
    let mut equations = [[0.0; KINDS + 1]; KINDS];
    for (Steps(counts), instructions) in counts.iter().zip(instructions) {
        for i in 0..KINDS {
            let share = counts[i] / largest[i];
            for j in 0..KINDS {
                equations[i][j] += share * counts[j] / largest[j];
            }
            equations[i][KINDS] += share * instructions;
        }
    }
    for (i, equation) in equations.iter_mut().enumerate() {
        equation[i] += LITTLE;
    }
    let solved = solve(equations);
    Steps(std::array::from_fn(|i| solved[i] / largest[i]))
}

/// Solves as many equations as there are weights.
fn solve(mut equations: [Equation; KINDS]) -> [f64; KINDS] {
    for i in 0..KINDS {
        let pivot = equations[i];
        for (k, equation) in equations.iter_mut().enumerate() {
            let factor = equation[i] / pivot[i];
            if k != i {
                for (value, other) in equation.iter_mut().zip(pivot) {
                    *value -= factor * other;
                }
            }
        }
    }
    std::array::from_fn(|i| equations[i][KINDS] / equations[i][i])
}
