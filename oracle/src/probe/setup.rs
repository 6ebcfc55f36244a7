//! What setup derives and judges.

use crate::model::setup::Setup;

extern "C" {
    fn probe_look(ms: f64, rate: u32) -> u64;
    fn probe_target(threshold: f64, margin: f64) -> f64;
    fn probe_coeff(ms: f64, rate: u32) -> f64;
    fn probe_refusal(
        threshold: f64,
        margin: f64,
        lookahead: f64,
        release: f64,
        rate: u32,
        channels: usize,
        max_block: usize,
    ) -> u32;
    fn probe_weights(weights: *const f64, len: usize) -> bool;
    fn probe_house(rate: u32, look: usize, weights: *mut f64, weights_len: usize) -> u32;
}

/// The lookahead in frames.
pub fn look(ms: f64, rate: u32) -> u64 {
    // SAFETY: the function takes numbers and always returns.
    unsafe { probe_look(ms, rate) }
}

/// The target of a threshold.
pub fn target(threshold: f64, margin: f64) -> f64 {
    // SAFETY: the function takes numbers and always returns.
    unsafe { probe_target(threshold, margin) }
}

/// The release coefficient, or -1.0 for what setup refuses.
pub fn coeff(ms: f64, rate: u32) -> f64 {
    // SAFETY: the function takes numbers and always returns.
    unsafe { probe_coeff(ms, rate) }
}

/// The first of 8 to 14 that arises, or 0.
pub fn refusal(setup: &Setup) -> u32 {
    let Setup {
        threshold,
        margin,
        lookahead,
        release,
        rate,
        channels,
        block,
        ..
    } = *setup;
    // SAFETY: the function takes numbers and always returns.
    unsafe { probe_refusal(threshold, margin, lookahead, release, rate, channels, block) }
}

/// Whether the weights are accepted.
pub fn weights(weights: &[f64]) -> bool {
    // SAFETY: pointer and length are those of one live slice.
    unsafe { probe_weights(weights.as_ptr(), weights.len()) }
}

/// The house table of a rate and look into a slice of its length: 1, else 0.
pub fn house(rate: u32, look: u64, weights: &mut [f64]) -> u32 {
    // SAFETY: pointer and length are those of one live slice.
    unsafe { probe_house(rate, look as usize, weights.as_mut_ptr(), weights.len()) }
}
