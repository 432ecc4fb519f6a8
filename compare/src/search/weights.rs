//! What a step of each kind costs in instructions, in the order of `Step`: the output of `search.sh fit 400 1` with the library.
use super::steps::Steps;

pub const WEIGHTS: Steps = Steps([
    667182.78, 350.01, 148.03, 225.70, 60.07, 17.85, 155.25, 65.49, 15.46, 18.81, 29.07, 42633.64,
    4.27, 495.23, 18.81, 20.80, 2.87, 8.01, 21.73, 84.51, 44.07,
]);
