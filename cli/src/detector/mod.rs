//! The limiter's own detector of peaks between samples, once more.
//!
//! For the report only: what is limited, and how far, is decided by the proved
//! code alone. The sums are formed in the same order (document 01, module 3),
//! so that the peaks told here are those that the limiter saw.

mod taps;

use taps::TAPS;

const PHASES: usize = 4;
const LENGTH: usize = 12;

/// The frames of silence in which the last sample is still heard.
pub const TAIL: usize = LENGTH - 1;

/// Tap by tap, the four phases side by side: one sum of each goes on at a time.
const TABLE: [[f64; PHASES]; LENGTH] = {
    let mut table = [[0.0; PHASES]; LENGTH];
    let mut tap = 0;
    while tap < LENGTH {
        let mut phase = 0;
        while phase < PHASES {
            table[tap][phase] = f64::from_bits(TAPS[phase][tap]);
            phase += 1;
        }
        tap += 1;
    }
    table
};

/// One channel's detector.
#[derive(Clone, Debug, Default)]
pub struct Detector {
    /// The samples that it remembers, newest first.
    last: [f64; LENGTH],
}

impl Detector {
    /// Takes one finite sample: the largest magnitude of the four phases.
    pub fn push(&mut self, sample: f64) -> f64 {
        self.last.copy_within(..LENGTH - 1, 1);
        self.last[0] = sample;
        let mut sums = [0.0; PHASES];
        for (taps, x) in TABLE.iter().zip(self.last) {
            for (sum, tap) in sums.iter_mut().zip(taps) {
                *sum += tap * x;
            }
        }
        sums.iter().fold(0.0, |most, sum| sum.abs().max(most))
    }

    /// The largest magnitude among the answers to silence that are still due.
    pub fn finish(mut self) -> f64 {
        (0..TAIL).fold(0.0, |most, _| self.push(0.0).max(most))
    }
}

#[cfg(test)]
mod tests {
    use super::*;

    /// The numbers after `bits` in the file that the proofs speak of.
    #[test]
    fn taps_are_those_of_the_proofs() {
        let text = include_str!("../../../crates/detector/specs/Taps.antt");
        let there: Vec<u64> = text
            .split("bits 0x")
            .skip(1)
            .map(|rest| {
                let hex = rest.split_whitespace().next().expect("a number");
                u64::from_str_radix(&hex.replace('_', ""), 16).expect("hexadecimal")
            })
            .collect();
        assert_eq!(there, TAPS.concat());
    }

    #[test]
    fn an_impulse_gives_the_largest_tap_of_each_column() {
        let mut detector = Detector::default();
        for column in TABLE {
            let sample = if column == TABLE[0] { 1.0 } else { 0.0 };
            let most = column.iter().fold(0.0_f64, |m, t| m.max(t.abs()));
            assert_eq!(detector.push(sample), most);
        }
        assert_eq!(detector.push(0.0), 0.0);
    }

    /// A tone at a quarter of the rate, sampled beside its peaks: 3 dB more.
    #[test]
    fn peaks_between_samples_are_seen() {
        let mut detector = Detector::default();
        let tone = [1.0, 1.0, -1.0, -1.0].iter().cycle().take(200);
        let most = tone.fold(0.0_f64, |m, x| m.max(detector.push(*x)));
        assert!((1.35..1.5).contains(&most), "{most}");
    }

    #[test]
    fn the_end_is_heard() {
        let mut detector = Detector::default();
        detector.push(1.0);
        assert!(detector.finish() > 0.9);
    }
}
