//! A child of the Rust's own module `oversample`: it reads and sets what is
//! private there.

use super::PolyphaseUpsampler;

/// The taps, phase by phase.
pub(crate) fn phases(detector: &PolyphaseUpsampler) -> &[Vec<f64>] {
    &detector.phases
}

/// The remembered samples, newest first.
pub(crate) fn store(detector: &PolyphaseUpsampler) -> &[f64] {
    &detector.delay
}

/// Replace the remembered samples, as a host may do that owns the store.
pub(crate) fn set_store(detector: &mut PolyphaseUpsampler, samples: &[f64]) {
    detector.delay.copy_from_slice(samples);
}
