//! The audio that is limited.

use daggeryuzu::Sample;

/// How loud it is.
#[derive(Clone, Copy, Debug, PartialEq, Eq)]
pub enum Level {
    /// Far above the target again and again: the gain moves all the time.
    Loud,
    /// Never near it: the gain stays 1.
    Quiet,
}

impl Level {
    /// For the table.
    pub fn name(self) -> &'static str {
        match self {
            Self::Loud => "loud",
            Self::Quiet => "quiet",
        }
    }

    fn factor(self) -> f64 {
        match self {
            Self::Loud => 4.0,
            Self::Quiet => 0.1,
        }
    }
}

/// Blocks of planar audio: harmonics of a voice that swells four times a
/// second, with noise. No sample is 0 and none is subnormal.
pub fn blocks<T: Sample>(
    level: Level,
    channels: usize,
    block: usize,
    frames: usize,
) -> Vec<Vec<T>> {
    let mut noise = 0x9e37_79b9_7f4a_7c15_u64;
    let mut next = || {
        noise ^= noise << 13;
        noise ^= noise >> 7;
        noise ^= noise << 17;
        (noise >> 11) as f64 / (1_u64 << 52) as f64 - 1.0
    };
    let count = (frames / block).max(1);
    (0..count)
        .map(|b| {
            let mut samples = Vec::with_capacity(channels * block);
            for c in 0..channels {
                for i in 0..block {
                    let t = (b * block + i) as f64 / 48_000.0;
                    let turn = std::f64::consts::TAU * t;
                    let swell = 0.55 + 0.45 * (4.0 * turn + c as f64).sin();
                    let voice = (130.0 * turn).sin() + 0.5 * (910.0 * turn).sin();
                    let sample = level.factor() * swell * (0.4 * voice + 0.2 * next() + 1e-3);
                    samples.push(T::from_f64(sample));
                }
            }
            samples
        })
        .collect()
}
