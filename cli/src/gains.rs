//! The gains that the limiter applied, told from what went in and came out.

use crate::series::Series;

/// Below this an input tells no gain: the limiter gives out 0 for what would be
/// below 1e-30.
const FAINT: f64 = 1e-20;

/// A gain of -0.1 dB: the release comes near 1 quickly and reaches it late, so
/// that most gains below 1 cannot be heard.
const TENTH: f64 = 0.988_553_094_656_938_6;

/// The least gain and its frame.
#[derive(Clone, Copy, Debug, PartialEq)]
pub struct Least {
    /// As a plain factor.
    pub gain: f64,
    /// Frames before it.
    pub frame: u64,
}

/// Gains frame by frame: output over input, where the input is not 0. Where all
/// channels are silent there is none, and the picture keeps the last one.
#[derive(Clone, Debug)]
pub struct Gains {
    least: Least,
    below_unity: u64,
    below_tenth: u64,
    frames: u64,
    last: f64,
    curve: Series,
}

impl Default for Gains {
    fn default() -> Self {
        Self {
            least: Least {
                gain: 1.0,
                frame: 0,
            },
            below_unity: 0,
            below_tenth: 0,
            frames: 0,
            last: 1.0,
            curve: Series::lowest(),
        }
    }
}

impl Gains {
    /// Takes a frame's inputs with their outputs. The largest input tells the
    /// gain most exactly.
    pub fn take(&mut self, samples: impl Iterator<Item = (f64, f64)>) {
        let (input, output) =
            samples
                .filter(|(x, _)| x.is_finite())
                .fold((0.0_f64, 0.0), |most, now| {
                    if now.0.abs() > most.0.abs() {
                        now
                    } else {
                        most
                    }
                });
        if input.abs() >= FAINT {
            self.last = output / input;
            self.below_unity += u64::from(self.last < 1.0);
            self.below_tenth += u64::from(self.last <= TENTH);
            if self.last < self.least.gain {
                self.least = Least {
                    gain: self.last,
                    frame: self.frames,
                };
            }
        }
        self.curve.push(self.last);
        self.frames += 1;
    }

    /// The first of the least gains, or nothing where none was below 1.
    #[must_use]
    pub fn least(&self) -> Option<Least> {
        (self.below_unity > 0).then_some(self.least)
    }

    /// Frames whose gain was below 1.
    #[must_use]
    pub fn below_unity(&self) -> u64 {
        self.below_unity
    }

    /// Frames whose gain was −0.1 dB or less.
    #[must_use]
    pub fn below_tenth(&self) -> u64 {
        self.below_tenth
    }

    /// Frames taken.
    #[must_use]
    pub fn frames(&self) -> u64 {
        self.frames
    }

    /// The gain over time.
    #[must_use]
    pub fn curve(&self) -> &Series {
        &self.curve
    }
}

#[cfg(test)]
mod tests {
    use super::*;

    #[test]
    fn the_largest_input_tells_the_gain_and_silence_tells_none() {
        let mut gains = Gains::default();
        gains.take([(0.5, 0.5), (-0.25, -0.25)].into_iter());
        gains.take([(0.5, 0.25), (0.0, 0.0)].into_iter());
        gains.take([(0.0, 0.0), (1e-300, 0.0)].into_iter());
        gains.take([(f64::NAN, 0.0), (-0.5, -0.375)].into_iter());
        let least = Least {
            gain: 0.5,
            frame: 1,
        };
        assert_eq!(gains.least(), Some(least));
        assert_eq!(gains.below_unity(), 2);
        let curve: Vec<_> = gains.curve().points().map(|p| p.1).collect();
        assert_eq!(curve, [1.0, 0.5, 0.5, 0.75]);
    }

    #[test]
    fn unity_has_no_least_gain() {
        let mut gains = Gains::default();
        gains.take([(0.5, 0.5)].into_iter());
        assert_eq!(gains.least(), None);
        gains.take([(0.5, 0.499)].into_iter());
        gains.take([(0.5, 0.494)].into_iter());
        assert_eq!((gains.below_unity(), gains.below_tenth()), (2, 1));
    }
}
