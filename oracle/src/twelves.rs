//! Twelve samples, newest first, as a channel's detector may have been left with
//! from outside: with sums that are equal, infinite or no numbers.

use crate::model::detector::TAPS;
use crate::numbers::{any, huge, not_finite, smallest, uniform};
use crate::rng::Rng;
use crate::signals::height;

/// Twelve samples of a kind, no kind being rare.
pub fn twelve(rng: &mut Rng) -> [f64; TAPS] {
    let mut samples = [0.0; TAPS];
    match rng.below(8) {
        0 => samples[rng.below(12) as usize] = height(rng),
        1 => pair(&mut samples, rng),
        2 => samples.fill_with(|| smallest(rng)),
        3 => samples.fill_with(|| huge(rng)),
        4 => samples.fill_with(|| any(rng)),
        5 => overflow(&mut samples, rng),
        // A NaN spoils every sum, an infinity all but those with a tap of 0.
        _ => {
            samples.fill_with(|| uniform(rng, -1.0, 1.0));
            samples[rng.below(12) as usize] = not_finite(rng);
        }
    }
    samples
}

/// Two samples of one magnitude side by side, the first yet to be heard at its
/// largest tap.
fn pair(samples: &mut [f64; TAPS], rng: &mut Rng) {
    let (at, x) = (rng.below(6) as usize, height(rng));
    samples[at] = x;
    samples[at + 1] = rng.pick(&[x, -x]);
}

/// Two samples of which some of the sums overflow, and mostly an infinity behind
/// them, to which such a sum is then added: where the signs differ it is a NaN.
fn overflow(samples: &mut [f64; TAPS], rng: &mut Rng) {
    let at = rng.below(6) as usize;
    samples[at] = rng.pick(&[f64::MAX, -f64::MAX]);
    samples[at + 1] = f64::MAX * uniform(rng, -1.0, 1.0);
    if rng.below(4) > 0 {
        let behind = at + 2 + rng.below(4) as usize;
        samples[behind] = rng.pick(&[f64::INFINITY, f64::NEG_INFINITY]);
    }
}

#[cfg(test)]
mod tests {
    use super::*;
    use crate::model::detector::{answer, phase, push, Sums};

    /// What the phase is decided by comes about, one push after another.
    #[test]
    fn every_kind_of_sums_is_met() {
        let mut rng = Rng::new(9);
        let mut met: Vec<Sums> = Vec::new();
        for _ in 0..2000 {
            let mut store = twelve(&mut rng);
            met.extend((0..TAPS).map(|_| push(&mut store, 0.0)));
        }
        let as_high = |sums: &Sums| {
            let peak = answer(sums);
            let high = sums.iter().filter(|sum| sum.abs() == peak);
            if peak > 0.0 {
                high.count()
            } else {
                0
            }
        };
        let count = |test: &dyn Fn(&Sums) -> bool| met.iter().filter(|s| test(s)).count();
        let finite = |s: &Sums| answer(s).is_finite();
        let nan = |s: &Sums| s.iter().any(|sum| sum.is_nan());
        assert!(count(&|s| finite(s) && as_high(s) > 1) > 200);
        assert!(count(&|s| !finite(s) && as_high(s) > 1) > 200);
        assert!(count(&|s| !finite(s) && as_high(s) == 1) > 20);
        // The first infinite phase is another than 0, behind a NaN and a number.
        assert!(count(&|s| !finite(s) && s[0].is_nan()) > 20);
        assert!(count(&|s| !finite(s) && s[0].is_finite()) > 20);
        assert!(count(&|s| nan(s) && phase(s).is_none()) > 20);
        assert!(count(&|s| !nan(s) && phase(s).is_none()) > 200);
        for first in 0..4 {
            assert!(count(&|s| phase(s) == Some(first)) > 200);
        }
    }
}
