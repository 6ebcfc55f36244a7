//! Commands that print what the running Rust holds.

use std::fmt::Write as _;

use crate::dsp::oversample::{inside as detector, PolyphaseUpsampler};
use crate::mastering::limiter::inside as limiter;
use crate::model::house;

/// The 48 taps of the limiter's detector, one phase to a line.
pub fn taps() -> String {
    let built = PolyphaseUpsampler::new(4, 12);
    let mut text = String::new();
    for phase in detector::phases(&built) {
        let bits: Vec<String> = phase.iter().map(hex).collect();
        let _ = writeln!(text, "{}", bits.join(" "));
    }
    text
}

/// The attack weights for a look, one to a line, first weight first.
pub fn weights(look: usize) -> Result<String, String> {
    let built = limiter::prepared(look, 0.0)?;
    Ok(limiter::weights(&built)
        .iter()
        .map(|w| hex(w) + "\n")
        .collect())
}

/// The house tables one after the other, one weight to a line; a line before each
/// tells whose it is, and from which place of them all.
pub fn house() -> Result<String, String> {
    let (mut text, mut place) = (String::new(), 0);
    for (rate, _) in house::PAIRS {
        let (look, weights) = limiter::attack(house::LOOKAHEAD, rate)?;
        let count = weights.len();
        let _ = writeln!(
            text,
            "# rate {rate} look {look}, {count} weights from place {place}"
        );
        text.extend(weights.iter().map(|w| hex(w) + "\n"));
        place += count;
    }
    Ok(text)
}

/// Drive `step_env` with required gains and print what each step leaves.
pub fn steps(look: usize, release_ms: f64, gains: &[f64]) -> Result<String, String> {
    let mut built = limiter::prepared(look, release_ms)?;
    let mut text = String::new();
    for &gain in gains {
        let s = limiter::step(&mut built, gain);
        let _ = writeln!(
            text,
            "frame={} floor={} dropped={} kept={} tally={} mean={} gain={}",
            s.frame,
            hex(&s.floor),
            s.dropped,
            s.kept,
            s.tally,
            hex(&s.mean),
            hex(&s.gain)
        );
    }
    Ok(text)
}

/// A float's bits.
fn hex(x: &f64) -> String {
    format!("{:016x}", x.to_bits())
}

#[cfg(test)]
mod tests {
    use super::*;

    /// The derived `Debug` writes each float so that it reads back the same.
    #[test]
    fn taps_are_those_that_debug_prints() {
        let built = PolyphaseUpsampler::new(4, 12);
        let expected = format!("phases: {:?},", detector::phases(&built));
        assert!(format!("{built:?}").contains(&expected));
        assert_eq!(taps().split_whitespace().count(), 48);
    }

    #[test]
    fn weights_are_as_many_as_the_attack_row() {
        for (look, row) in [(11, 1), (12, 1), (13, 2), (72, 61), (288, 277)] {
            let text = weights(look).expect("a good look");
            assert_eq!(text.lines().count(), row);
        }
    }

    /// Each stretch is what the Rust computes for its look at any rate.
    #[test]
    fn house_tables_lie_end_to_end() {
        let stretch = |rate: u32, look: usize, place: usize| {
            let rows = weights(look).expect("a good look");
            let count = look - 11;
            format!("# rate {rate} look {look}, {count} weights from place {place}\n{rows}")
        };
        let due = [
            stretch(44_100, 66, 0),
            stretch(48_000, 72, 55),
            stretch(96_000, 144, 116),
            stretch(192_000, 288, 249),
        ];
        assert_eq!(house(), Ok(due.concat()));
    }
}
