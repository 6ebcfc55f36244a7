//! The stores that are lent to each call.

use crate::settings::MOST_CHANNELS;
use crate::sys::{self, LentStores, SetupStores};

/// Document 01's six stores.
#[derive(Clone, Debug)]
pub(crate) struct Stores {
    delay: Vec<f64>,
    marks: Vec<u64>,
    minima: Vec<f64>,
    weights: Vec<f64>,
    row: Vec<f64>,
    detector: Vec<f64>,
    look: usize,
    house: bool,
}

/// The largest look that setup takes: for others, and for more than [`MOST_CHANNELS`],
/// it refuses before it looks at a store, so none is made.
const LOOK: u64 = 4096;

impl Stores {
    /// Stores of exact lengths. The weights are computed as the Rust does, but for a rate
    /// and look with a house table, which setup is to fill in.
    pub(crate) fn new(rate: u32, channels: usize, look: u64) -> Self {
        let channels = channels.min(MOST_CHANNELS);
        let look = look.min(LOOK) as usize;
        let l = look.saturating_sub(11).max(1);
        let house = sys::has_house_weights(rate, look);
        Self {
            delay: vec![0.0; channels * look],
            marks: vec![0; look + 1],
            minima: vec![0.0; look + 1],
            weights: if house { vec![0.0; l] } else { hann(l) },
            row: vec![0.0; l],
            detector: vec![0.0; channels * 12],
            look,
            house,
        }
    }

    /// For setup.
    pub(crate) fn lent_to_setup(&mut self) -> SetupStores<'_> {
        SetupStores {
            delay: &mut self.delay,
            marks: &mut self.marks,
            minima: &mut self.minima,
            weights: &mut self.weights,
            row: &mut self.row,
            detector: &mut self.detector,
        }
    }

    /// For one call after it.
    pub(crate) fn lent(&mut self) -> LentStores<'_> {
        LentStores {
            delay: &mut self.delay,
            marks: &mut self.marks,
            minima: &mut self.minima,
            weights: &self.weights,
            row: &mut self.row,
            detector: &mut self.detector,
        }
    }

    pub(crate) fn look(&self) -> usize {
        self.look
    }

    /// Whether the weights are for setup to fill in, from a house table.
    pub(crate) fn house(&self) -> bool {
        self.house
    }
}

/// The attack's weights: the inside of a Hann window, normalised to a sum of 1.
fn hann(l: usize) -> Vec<f64> {
    let mut weights: Vec<f64> = (0..l)
        .map(|j| 0.5 - 0.5 * libm::cos(std::f64::consts::TAU * (j as f64 + 1.0) / (l as f64 + 1.0)))
        .collect();
    let sum: f64 = weights.iter().fold(0.0, |sum, w| sum + w);
    for w in &mut weights {
        *w /= sum;
    }
    weights
}

#[cfg(test)]
mod tests {
    use super::*;
    use crate::{Limiter, LimiterSettings, ProcessSpec};

    /// A host that changes over to the house tables hears no difference.
    #[test]
    fn the_house_tables_are_what_would_be_computed() {
        for (rate, l) in [(44_100, 55), (48_000, 61), (96_000, 133), (192_000, 277)] {
            let spec = ProcessSpec {
                sample_rate: rate,
                channels: 1,
                max_block: 1,
                max_memory: None,
            };
            let limiter = Limiter::prepare(LimiterSettings::default(), spec).expect("set up");
            assert!(limiter.has_house_weights());
            let bits = |weights: &[f64]| weights.iter().map(|w| w.to_bits()).collect::<Vec<_>>();
            assert_eq!(bits(&limiter.stores.weights), bits(&hann(l)), "{rate}");
        }
    }
}
