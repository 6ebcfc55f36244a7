//! Settings for limiter setup, most of them good ones, aimed at the rows of
//! document 01's table.

use crate::model::setup::Setup;
use crate::numbers::{any, edge, near, uniform};
use crate::rng::Rng;

/// Rates at and beside the ends, and usual ones.
const RATES: [u32; 16] = [
    0,
    1,
    7_999,
    8_000,
    8_001,
    11_025,
    16_000,
    22_050,
    44_100,
    48_000,
    88_200,
    96_000,
    176_400,
    192_000,
    192_001,
    u32::MAX,
];

/// Looks beside the ends of those that are taken.
const LOOKS: [u64; 8] = [1, 9, 10, 11, 12, 4095, 4096, 4097];

/// A random setup in which all channels count.
pub fn setup(rng: &mut Rng) -> Setup {
    let rate = rate(rng);
    Setup {
        threshold: threshold(rng),
        margin: margin(rng),
        lookahead: lookahead(rate, rng),
        release: release(rng),
        left_out: 0,
        rate,
        channels: count(8, rng),
        block: count(65_536, rng),
    }
}

fn rate(rng: &mut Rng) -> u32 {
    match rng.below(8) {
        0 => rng.pick(&RATES),
        1 => (rng.word() >> rng.below(64)) as u32,
        2..=4 => rng.pick(&RATES[3..14]),
        _ => 8_000 + rng.below(184_001) as u32,
    }
}

fn threshold(rng: &mut Rng) -> f64 {
    match rng.below(8) {
        0 => any(rng),
        1 => edge(rng),
        2 => {
            let end = rng.pick(&[-30.0, -1.0, 0.0, -0.0]);
            near(rng, end, 3)
        }
        3 => uniform(rng, -7_000.0, 100.0),
        _ => uniform(rng, -30.0, 0.0),
    }
}

fn margin(rng: &mut Rng) -> f64 {
    match rng.below(12) {
        0 => any(rng),
        1 => edge(rng),
        2 => near(rng, 30.0, 3),
        3 => rng.pick(&[0.0, -0.0, 5e-324, -5e-324]),
        4 => uniform(rng, -5.0, 7_000.0),
        5..=7 => 0.1,
        _ => uniform(rng, 0.0, 30.0),
    }
}

/// Close to a half, where the rounding turns, for looks of every size.
fn lookahead(rate: u32, rng: &mut Rng) -> f64 {
    let look = match rng.below(3) {
        0 => rng.pick(&LOOKS),
        1 => rng.below(5_000),
        _ => 11 + rng.below(400),
    };
    let ms = |frames: f64| frames / (f64::from(rate) * 1e-3);
    match rng.below(12) {
        0 => any(rng),
        1 => edge(rng),
        2 => rng.pick(&[0.0, -0.0, -1.5, 5e-324, 0.21, 0.22, 85.34, 85.36]),
        3..=6 => near(rng, ms(look as f64 + 0.5), 3),
        _ => ms(uniform(rng, look as f64, look as f64 + 1.0)),
    }
}

fn release(rng: &mut Rng) -> f64 {
    match rng.below(12) {
        0 => any(rng),
        1 => edge(rng),
        2 => {
            let end = rng.pick(&[0.01, 10_000.0]);
            near(rng, end, 3)
        }
        3 => rng.pick(&[0.0, -0.0, 0.01, 10_000.0]),
        4 => uniform(rng, 0.0, 0.02),
        5..=7 => uniform(rng, 0.01, 10_000.0),
        _ => uniform(rng, 0.01, 300.0),
    }
}

/// A count up to `most`, or beside its ends, or of any size. Each is one that
/// a float holds: so the shrinker takes it for one.
fn count(most: u64, rng: &mut Rng) -> usize {
    match rng.below(16) {
        0 => 0,
        1 => most as usize + rng.below(3) as usize,
        2 => (rng.word() >> rng.below(64)) as f64 as usize,
        _ => 1 + rng.below(most) as usize,
    }
}

#[cfg(test)]
mod tests {
    use super::*;

    #[test]
    fn every_row_is_met_and_most_setups_are_good() {
        let mut rng = Rng::new(1);
        let mut met = [0; 15];
        for _ in 0..20_000 {
            met[setup(&mut rng).refusal() as usize] += 1;
        }
        assert!(met[0] > 4_000, "{met:?}");
        assert!(met[8..].iter().all(|&n| n > 200), "{met:?}");
    }
}
