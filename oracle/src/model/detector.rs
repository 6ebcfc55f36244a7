//! The detector, as document 01 and document 02, Change 5, tell it.

use std::sync::OnceLock;

use crate::dsp::oversample::{inside, PolyphaseUpsampler};
use crate::dsp::sanitize::finite_or_zero;

/// Samples that a channel's detector remembers.
pub const TAPS: usize = 12;

/// Sums over them.
pub const PHASES: usize = 4;

/// The sums of a push, phase by phase.
pub type Sums = [f64; PHASES];

/// One push into a channel's twelve latest samples, newest first: the sums over
/// them.
pub fn push(store: &mut [f64], x: f64) -> Sums {
    store.rotate_right(1);
    store[0] = finite_or_zero(x);
    sums(store)
}

/// The sums over twelve samples.
pub fn sums(store: &[f64]) -> Sums {
    taps().map(|phase| {
        let products = phase.iter().zip(store).map(|(tap, x)| tap * x);
        products.fold(0.0, |acc: f64, product| acc + product)
    })
}

/// The largest magnitude of the sums; a NaN never wins.
pub fn answer(sums: &Sums) -> f64 {
    let larger = |peak: f64, sum: f64| if sum > peak { sum } else { peak };
    sums.iter().map(|sum| sum.abs()).fold(0.0, larger)
}

/// The first phase whose magnitude is the largest, or none where that is 0.0.
pub fn phase(sums: &Sums) -> Option<usize> {
    let largest = answer(sums);
    let first = sums.iter().position(|sum| sum.abs() == largest);
    first.filter(|_| largest > 0.0)
}

/// The taps of the running Rust, phase by phase.
pub fn taps() -> &'static [[f64; TAPS]; PHASES] {
    static TABLE: OnceLock<[[f64; TAPS]; PHASES]> = OnceLock::new();
    TABLE.get_or_init(|| {
        let detector = PolyphaseUpsampler::new(PHASES, TAPS);
        let phases = inside::phases(&detector);
        [0, 1, 2, 3].map(|phase: usize| phases[phase].as_slice().try_into().expect("12 taps"))
    })
}

#[cfg(test)]
mod tests {
    use super::*;

    const INF: f64 = f64::INFINITY;

    #[test]
    fn the_phase_is_the_first_of_the_largest() {
        for (sums, peak, first) in [
            ([0.25, 0.5, -1.0, 0.75], 1.0, Some(2)),
            ([-0.5, 0.5, 0.5, -0.5], 0.5, Some(0)),
            ([0.25, 0.5, -0.5, 0.25], 0.5, Some(1)),
            ([f64::NAN, 0.5, f64::NAN, 0.75], 0.75, Some(3)),
            ([0.5, f64::NAN, -INF, INF], INF, Some(2)),
            ([f64::NAN; PHASES], 0.0, None),
            ([0.0, -0.0, f64::NAN, 0.0], 0.0, None),
            ([0.0, -5e-324, 0.0, 5e-324], 5e-324, Some(1)),
        ] {
            assert_eq!((answer(&sums), phase(&sums)), (peak, first), "{sums:?}");
        }
    }

    /// Of two equal samples side by side the peak lies in the middle, where the
    /// taps of phases 1 and 2 are the same ones in the other order.
    #[test]
    fn a_pair_is_as_high_in_two_phases() {
        for x in [1.0, -0.3, 1e300, 2e-308] {
            let mut store = [0.0; TAPS];
            let pushed: Vec<Sums> = [x, x, 0.0, 0.0, 0.0, 0.0, 0.0]
                .map(|x| push(&mut store, x))
                .to_vec();
            let [_, low, high, _] = pushed[6];
            assert_eq!(low, high);
            assert_eq!(phase(&pushed[6]), Some(1));
            assert!(pushed.iter().all(|sums| answer(sums) <= low.abs()));
        }
    }

    #[test]
    fn the_answer_is_the_rusts() {
        let mut rng = crate::rng::Rng::new(6);
        for kind in crate::signals::SIGNALS {
            let mut rust = PolyphaseUpsampler::new(PHASES, TAPS);
            let mut store = [0.0; TAPS];
            for x in crate::signals::signal(kind, 200, &mut rng) {
                let due = rust.peak_abs(x);
                assert_eq!(answer(&push(&mut store, x)).to_bits(), due.to_bits());
                assert_eq!(store, inside::store(&rust));
            }
        }
    }
}
