//! The detector's sums and predictions, made again: the upstream keeps the sums only less the best one,
//! and the predictions not at all.

use crate::sequence::{Sequence, SYMBOLS};
use crate::Complex32;

/// The cheapest sum into each state, before the best one is taken off.
pub fn raw_costs(s: &Sequence, input: Complex32, reliable: bool) -> [f32; 64] {
    let mut costs = [f32::INFINITY; 64];
    for prior in 0..64 {
        for current in 0..4 {
            let cost = s.costs[prior] + metric(s, prior, current, input, reliable);
            let state = current + 4 * (prior % 16);
            if cost < costs[state] {
                costs[state] = cost;
            }
        }
    }
    costs
}

fn metric(s: &Sequence, prior: usize, current: usize, input: Complex32, reliable: bool) -> f32 {
    if !reliable {
        return 0.0;
    }
    let prediction = prediction(&s.channels[prior], prior, current);
    let x = input.real - prediction.real;
    let y = input.imaginary - prediction.imaginary;
    (x * x + y * y).min(16.0)
}

/// What a channel makes of a symbol after a state.
pub fn prediction(channel: &[Complex32; 4], prior: usize, current: usize) -> Complex32 {
    let path = [current, prior % 4, prior / 4 % 4, prior / 16];
    let mut prediction = Complex32::default();
    for (h, place) in channel.iter().zip(path) {
        let symbol = SYMBOLS[place];
        prediction.real += h.real * symbol.real - h.imaginary * symbol.imaginary;
        prediction.imaginary += h.real * symbol.imaginary + h.imaginary * symbol.real;
    }
    prediction
}

pub fn first_cheapest(costs: &[f32; 64]) -> usize {
    let mut best = 0;
    for state in 1..64 {
        if costs[state].total_cmp(&costs[best]).is_lt() {
            best = state;
        }
    }
    best
}
