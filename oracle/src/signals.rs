//! Sequences of samples for the detector and the layers above it.

use std::f64::consts::TAU;

use crate::dsp::math;
use crate::numbers::{any, huge, log_uniform, not_finite, smallest, subnormal, uniform};
use crate::rng::Rng;
use crate::singles;

/// What a sequence of samples is like.
#[derive(Clone, Copy, Debug, PartialEq, Eq)]
pub enum Signal {
    Silence,
    Speech,
    Square,
    Alternating,
    Impulses,
    Overdriven,
    Subnormal,
    Huge,
    Overflow,
    Damaged,
    Levels,
    Anything,
    /// Two samples of one magnitude among silence: between them the sums of two
    /// phases are equal.
    Pairs,
    /// The smallest numbers that there are: their products are often equal.
    Smallest,
}

/// All kinds but the last two, in the order in which they are recorded.
pub const SIGNALS: [Signal; 12] = [
    Signal::Silence,
    Signal::Speech,
    Signal::Square,
    Signal::Alternating,
    Signal::Impulses,
    Signal::Overdriven,
    Signal::Subnormal,
    Signal::Huge,
    Signal::Overflow,
    Signal::Damaged,
    Signal::Levels,
    Signal::Anything,
];

/// `length` samples of a kind.
pub fn signal(kind: Signal, length: usize, rng: &mut Rng) -> Vec<f64> {
    let voice = Voice::new(rng);
    let period = 1 + rng.below(20) as usize;
    let mut pulse = 0.0;
    (0..length)
        .map(|i| match kind {
            Signal::Silence => rng.pick(&[0.0, 0.0, 0.0, -0.0]),
            Signal::Speech => voice.at(i, rng),
            Signal::Square => flipped(1.0, i / period),
            Signal::Alternating => flipped(rng.unit(), i),
            Signal::Impulses if i % (13 + period) == 0 => uniform(rng, -1.0, 1.0),
            Signal::Impulses => 0.0,
            Signal::Overdriven => 4.0 * voice.at(i, rng),
            Signal::Subnormal => subnormal(rng),
            Signal::Huge => flipped(huge(rng).abs(), i / period),
            Signal::Overflow => rng.pick(&[f64::MAX, f64::MAX, -f64::MAX, 0.0, 1.0]),
            Signal::Damaged if rng.below(8) == 0 => not_finite(rng),
            Signal::Damaged => voice.at(i, rng),
            Signal::Levels => log_uniform(rng, 0x7fe),
            Signal::Anything => any(rng),
            Signal::Pairs if i % (13 + period) == 0 => {
                pulse = height(rng);
                pulse
            }
            Signal::Pairs if i % (13 + period) == 1 => rng.pick(&[pulse, pulse, pulse, -pulse]),
            Signal::Pairs => 0.0,
            Signal::Smallest => smallest(rng),
        })
        .collect()
}

/// The height of a pulse, of either sign.
pub fn height(rng: &mut Rng) -> f64 {
    let x = uniform(rng, 0.5, 1.5);
    rng.pick(&[x, -x])
}

/// A sample of a kind at 32 bits, times a level: `x`, but that kinds at the ends
/// of the format are at those of this one.
pub fn narrowed(kind: Signal, x: f64, level: f64, rng: &mut Rng) -> f32 {
    match kind {
        Signal::Subnormal => singles::faint(rng),
        Signal::Huge => singles::huge(rng).copysign(x as f32),
        Signal::Overflow if x.abs() == f64::MAX => f32::MAX.copysign(x as f32),
        Signal::Damaged if !x.is_finite() => singles::not_finite(rng),
        Signal::Levels => singles::log_uniform(rng),
        Signal::Anything => singles::any(rng),
        _ => (x * level) as f32,
    }
}

/// `x`, moved to the middle of two f32, where it has all the digits of one, or to
/// a neighbour of that.
pub fn tied(x: f64, rng: &mut Rng) -> f64 {
    let middle = 1 << 28;
    let low = middle - 1 + rng.below(3);
    f64::from_bits(x.to_bits() & !(2 * middle - 1) | low)
}

/// `x`, negated at every odd `turn`.
fn flipped(x: f64, turn: usize) -> f64 {
    if turn.is_multiple_of(2) {
        x
    } else {
        -x
    }
}

/// A speech-like source: harmonics of a low pitch under a slow envelope, with
/// a little noise, so that peaks fall between samples as they do in speech.
struct Voice {
    pitch: f64,
    pace: f64,
    level: f64,
}

impl Voice {
    fn new(rng: &mut Rng) -> Self {
        Self {
            pitch: uniform(rng, 80.0, 400.0) / 48_000.0,
            pace: uniform(rng, 2.0, 40.0) / 48_000.0,
            level: uniform(rng, 0.05, 1.2),
        }
    }

    fn at(&self, i: usize, rng: &mut Rng) -> f64 {
        let t = i as f64;
        // The Rust's own sine, so that recorded samples are the same anywhere.
        let part = |k: f64| math::sin(TAU * self.pitch * k * t) / k;
        let voiced = part(1.0) + part(2.0) + part(5.0) + part(31.0);
        let envelope = 0.5 - 0.5 * math::cos(TAU * self.pace * t + 1.0);
        self.level * envelope * (voiced + uniform(rng, -0.2, 0.2))
    }
}
