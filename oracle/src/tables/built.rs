//! Tables that the rule accepts, as no Rust makes them: mirrored, strictly
//! rising up to the middle, and of the right sum.

use super::moves::{onto_middle, spread};
use crate::model::weights::WHOLE;
use crate::numbers::{log_uniform, stepped};
use crate::rng::Rng;

/// How many weights: mostly so few that each clause has little room; at times
/// the most that there may be, or more.
pub fn length(rng: &mut Rng) -> usize {
    let below = |n: u64, rng: &mut Rng| 1 + rng.below(n) as usize;
    match rng.below(128) {
        0 => rng.pick(&[4084, 4085, 4095, 4096, 4097, 4098]),
        1..=63 => below(6, rng),
        64..=99 => below(24, rng),
        100..=119 => below(80, rng),
        _ => below(300, rng),
    }
}

/// A table of some shape.
pub fn built(places: usize, rng: &mut Rng) -> Vec<f64> {
    let half = places.div_ceil(2);
    let level = 1.0 / places as f64;
    let rising = match rng.below(4) {
        0 | 1 => return flat(places, WHOLE, rng),
        2 => climb(foot(rng).min(level / 2.0), half, rng),
        _ => stairs(level, half, rng),
    };
    let mut table = mirror(&rising, places);
    onto_middle(&mut table, WHOLE);
    table
}

/// All about the same, from place to place a few last places up.
pub fn flat(places: usize, total: u128, rng: &mut Rng) -> Vec<f64> {
    let level = total as f64 / WHOLE as f64 / places as f64;
    let rising = climb(level, places.div_ceil(2), rng);
    let mut table = mirror(&rising, places);
    spread(&mut table, total);
    table
}

/// Nothing to speak of up to the middle, which has it all.
pub fn spike(places: usize, rng: &mut Rng) -> Vec<f64> {
    let start = foot(rng).min(1.0 / WHOLE as f64);
    let mut table = mirror(&climb(start, places.div_ceil(2), rng), places);
    onto_middle(&mut table, WHOLE);
    table
}

/// So many weights that rise by a last place, or by a few.
fn climb(start: f64, places: usize, rng: &mut Rng) -> Vec<f64> {
    let most = rng.pick(&[1, 1, 2, 5]);
    let mut weight = start;
    let next = |_| {
        weight = stepped(weight, 1 + rng.below(most) as i64);
        weight
    };
    (0..places).map(next).collect()
}

/// A least weight: with a whole part or without, down to the smallest float.
fn foot(rng: &mut Rng) -> f64 {
    match rng.below(4) {
        0 => f64::from_bits(rng.below(4)),
        1 => log_uniform(rng, 0x3fe).abs(),
        // Of about every size that has a whole part.
        _ => rng.unit() / (1u64 << rng.below(64)) as f64,
    }
}

/// Rises of any size below `level`, some of them of a last place.
fn stairs(level: f64, places: usize, rng: &mut Rng) -> Vec<f64> {
    let mut rising: Vec<f64> = (0..places).map(|_| level * rng.unit()).collect();
    rising.sort_by(f64::total_cmp);
    for at in 1..places {
        let next = stepped(rising[at - 1], 1);
        let wide = rng.below(4) > 0 && rising[at] > next;
        rising[at] = if wide { rising[at] } else { next };
    }
    rising
}

/// These up to the middle, and back down.
fn mirror(rising: &[f64], places: usize) -> Vec<f64> {
    let back = rising.iter().take(places - rising.len()).rev();
    rising.iter().chain(back).copied().collect()
}
