//! Settings that document 01 accepts.

use super::Mode;
use crate::model::setup::Setup;
use crate::numbers::uniform;
use crate::rng::Rng;
use crate::whole::plan::LARGEST;

/// Looks that are drawn often.
const LOOKS: [u64; 8] = [11, 12, 13, 20, 31, 32, 33, 72];
const RATES: [u32; 8] = [
    8_000, 11_025, 22_050, 44_100, 48_000, 96_000, 176_400, 192_000,
];

/// A setup that document 01 accepts, in which all channels count.
pub fn accepted(mode: Mode, rng: &mut Rng) -> Setup {
    loop {
        let rate = match rng.below(2) {
            0 => rng.pick(&RATES),
            _ => 8_000 + rng.below(184_001) as u32,
        };
        let frames = drawn_look(mode, rng) as f64 + uniform(rng, -0.5, 0.5);
        let setup = Setup {
            threshold: threshold(rng),
            margin: rng.pick(&[0.0, -0.0, 0.1, 0.1, 1.0, 30.0]),
            lookahead: frames * 1e3 / f64::from(rate),
            release: release(rng),
            left_out: 0,
            rate,
            channels: 1 + rng.below(8) as usize,
            block: largest_block(rng),
        };
        if setup.refusal() == 0 {
            return setup;
        }
    }
}

fn drawn_look(mode: Mode, rng: &mut Rng) -> u64 {
    match (rng.below(32), mode) {
        (0, Mode::Whole | Mode::Direct) => 4_096 - rng.below(3),
        (1 | 2, Mode::Whole | Mode::Direct) => 11 + rng.below(4_086),
        (0, Mode::Damage) if rng.below(8) == 0 => 4_096 - rng.below(4_086),
        (3..=6, _) => 11 + rng.below(300),
        (7..=12, _) => 11 + rng.below(60),
        _ => rng.pick(&LOOKS),
    }
}

pub fn threshold(rng: &mut Rng) -> f64 {
    match rng.below(6) {
        0 => rng.pick(&[-30.0, 0.0, -0.0, -1.0]),
        _ => uniform(rng, -30.0, 0.0),
    }
}

fn release(rng: &mut Rng) -> f64 {
    match rng.below(3) {
        0 => rng.pick(&[0.0, -0.0, 0.01, 10_000.0]),
        1 => uniform(rng, 0.01, 5.0),
        _ => uniform(rng, 0.01, 10_000.0),
    }
}

fn largest_block(rng: &mut Rng) -> usize {
    match rng.below(32) {
        0 => 0,
        1..=4 => 1 + rng.below(100) as usize,
        5..=9 => rng.below(LARGEST + 1) as usize,
        _ => LARGEST as usize,
    }
}
