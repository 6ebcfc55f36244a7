//! What limiter setup judges and derives, by document 01's table and its
//! paragraph on setup.

use std::f64::consts::LN_10;

use crate::dsp::math;

/// The most channels.
pub const CHANNELS: usize = 8;

/// What a limiter is set up with, as far as 8 to 14 judge it; and which channels
/// are left out, which nobody judges.
#[derive(Clone, Copy, Debug, PartialEq)]
pub struct Setup {
    pub threshold: f64,
    pub margin: f64,
    pub lookahead: f64,
    pub release: f64,
    /// The channels that do not count in the linked peak, a bit each (document 02,
    /// Change 7).
    pub left_out: u32,
    pub rate: u32,
    pub channels: usize,
    pub block: usize,
}

impl Setup {
    /// The first of 8 to 14 that arises, or 0.
    pub fn refusal(&self) -> u32 {
        let look = look(self.lookahead, self.rate);
        let rows = [
            (8, rate_taken(self.rate)),
            (9, (0.0..=30.0).contains(&self.margin)),
            (10, self.lookahead.is_finite() && self.lookahead > 0.0),
            (11, release_taken(self.release)),
            (12, (11..=4096).contains(&look)),
            (13, (1..=CHANNELS).contains(&self.channels)),
            (14, self.block <= 65_536),
        ];
        let broken = rows.iter().find(|(_, kept)| !kept);
        broken.map_or(0, |&(number, _)| number)
    }

    /// Whether setup takes release and rate, so that there is a coefficient.
    #[cfg(any(test, feature = "probe"))]
    pub fn has_coeff(&self) -> bool {
        release_taken(self.release) && rate_taken(self.rate)
    }

    /// 1.0 where the release has no frames, else 1 - exp(-1 / frames).
    pub fn release_coeff(&self) -> f64 {
        let frames = (self.release * 1e-3) * f64::from(self.rate);
        if frames == 0.0 {
            1.0
        } else {
            1.0 - math::exp(-1.0 / frames)
        }
    }

    /// exp of the decibels above full scale, kept within -700 and 0.
    pub fn target(&self) -> f64 {
        let argument = (self.threshold - self.margin) * (LN_10 / 20.0);
        if argument < -700.0 {
            math::exp(-700.0)
        } else if argument <= 0.0 {
            math::exp(argument)
        } else {
            math::exp(0.0)
        }
    }
}

/// Whether a channel counts: bit c leaves channel c out.
pub fn counts(left_out: u32, channel: usize) -> bool {
    left_out >> channel & 1 == 0
}

/// The bits of the channels that there can be; a state keeps these.
pub fn kept(left_out: u32) -> u32 {
    left_out & ((1 << CHANNELS) - 1)
}

/// The lookahead in frames, rounded, at least 1.
pub fn look(lookahead: f64, rate: u32) -> u64 {
    ((lookahead * 1e-3) * f64::from(rate)).round().max(1.0) as u64
}

fn rate_taken(rate: u32) -> bool {
    (8_000..=192_000).contains(&rate)
}

fn release_taken(ms: f64) -> bool {
    ms == 0.0 || (0.01..=10_000.0).contains(&ms)
}

#[cfg(test)]
mod tests {
    use super::*;
    use crate::numbers::stepped;

    const GOOD: Setup = Setup {
        threshold: -1.0,
        margin: 0.1,
        lookahead: 1.5,
        release: 50.0,
        left_out: 0,
        rate: 48_000,
        channels: 2,
        block: 512,
    };

    #[test]
    fn a_bit_leaves_its_channel_out() {
        let counted = |left_out| [0, 1, 2, 3, 4, 5, 6, 7].map(|c| u8::from(counts(left_out, c)));
        assert_eq!(counted(0), [1; CHANNELS]);
        assert_eq!(counted(8), [1, 1, 1, 0, 1, 1, 1, 1]);
        assert_eq!(counted(0b1000_0001), [0, 1, 1, 1, 1, 1, 1, 0]);
        assert_eq!(counted(255), [0; CHANNELS]);
        assert_eq!([256, 1 << 31, 0xffff_ff08].map(kept), [0, 0, 8]);
    }

    /// Any choice is as good.
    #[test]
    fn no_row_judges_who_counts() {
        for left_out in [1, 2, 3, 4, 255, 256, u32::MAX] {
            assert_eq!(Setup { left_out, ..GOOD }.refusal(), 0);
        }
    }

    #[test]
    fn document_01_looks() {
        assert_eq!(look(1.5, 48_000), 72);
        for (lookahead, frames, number) in [
            (0.21, 10, 12),
            (0.22, 11, 0),
            (85.34, 4096, 0),
            (85.36, 4097, 12),
        ] {
            assert_eq!(look(lookahead, 48_000), frames);
            assert_eq!(Setup { lookahead, ..GOOD }.refusal(), number);
        }
        assert_eq!(look(f64::NAN, 48_000), 1);
        assert_eq!(look(1e300, 48_000), u64::MAX);
    }

    #[test]
    fn the_first_broken_row_is_told() {
        let mut setup = GOOD;
        assert_eq!(setup.refusal(), 0);
        setup.block = 65_537;
        assert_eq!(setup.refusal(), 14);
        setup.channels = 9;
        assert_eq!(setup.refusal(), 13);
        setup.lookahead = 0.1;
        assert_eq!(setup.refusal(), 12);
        setup.release = 0.009;
        assert_eq!(setup.refusal(), 11);
        setup.lookahead = 0.0;
        assert_eq!(setup.refusal(), 10);
        setup.margin = 30.5;
        assert_eq!(setup.refusal(), 9);
        setup.rate = 7_999;
        assert_eq!(setup.refusal(), 8);
    }

    #[test]
    fn the_ends_of_each_row() {
        for margin in [0.0, -0.0, 30.0] {
            assert_eq!(Setup { margin, ..GOOD }.refusal(), 0);
        }
        for margin in [stepped(30.0, 1), -5e-324, f64::NAN, f64::INFINITY] {
            assert_eq!(Setup { margin, ..GOOD }.refusal(), 9);
        }
        for release in [0.0, -0.0, 0.01, 10_000.0] {
            let setup = Setup { release, ..GOOD };
            assert!(setup.has_coeff() && setup.refusal() == 0);
        }
        for release in [5e-324, stepped(0.01, -1), stepped(1e4, 1), f64::NAN, -1.0] {
            assert_eq!(Setup { release, ..GOOD }.refusal(), 11);
        }
        for lookahead in [0.0, -0.0, -1.5, f64::NAN, f64::INFINITY] {
            assert_eq!(Setup { lookahead, ..GOOD }.refusal(), 10);
        }
    }

    #[test]
    fn a_target_is_kept_between_its_ends() {
        let at = |threshold| Setup { threshold, ..GOOD }.target();
        assert_eq!(at(f64::NAN), 1.0);
        assert_eq!(at(0.2), 1.0);
        assert_eq!(at(f64::INFINITY), 1.0);
        assert_eq!(at(f64::NEG_INFINITY), math::exp(-700.0));
        assert_eq!(at(-1e6), at(f64::NEG_INFINITY));
        assert!(at(-1.0) < 1.0 && at(-1.0) > at(-2.0));
    }
}
