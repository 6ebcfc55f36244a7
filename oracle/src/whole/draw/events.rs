//! Events and the values that calls carry.

use crate::numbers::{any, any_number, near, not_finite, uniform};
use crate::rng::Rng;
use crate::whole::plan::Block;

/// Sorted events with finite values, of known and unknown ids, and at times a
/// word or two that make no event.
pub fn events(frames: u64, rng: &mut Rng) -> Vec<u64> {
    let count = match rng.below(8) {
        _ if frames == 0 => 0,
        0..=3 => 0,
        4..=6 => 1 + rng.below(3),
        _ => 1 + rng.below(20),
    };
    let mut offsets: Vec<u64> = (0..count).map(|_| offset(frames, rng)).collect();
    offsets.sort_unstable();
    let event = |offset| [offset, id(rng), value(rng).to_bits()];
    let mut words: Vec<u64> = offsets.into_iter().flat_map(event).collect();
    if rng.below(16) == 0 {
        words.extend((0..1 + rng.below(2)).map(|_| rng.word()));
    }
    words
}

/// Anywhere in a block, its ends and the grid more often.
fn offset(frames: u64, rng: &mut Rng) -> u64 {
    let offset = match rng.below(4) {
        0 => rng.pick(&[0, 1, 31, 32, 33, u64::MAX]),
        _ => rng.below(frames),
    };
    offset.min(frames - 1)
}

/// The threshold's id, or one that no bank of one parameter has.
fn id(rng: &mut Rng) -> u64 {
    match rng.below(8) {
        0 => rng.pick(&[1, 7, 8, u64::from(u32::MAX), 1 << 32, 1 << 63, u64::MAX]),
        _ => 0,
    }
}

/// A finite value for the threshold, in its range and out of it.
pub fn value(rng: &mut Rng) -> f64 {
    let value = match rng.below(8) {
        0 => any_number(rng),
        1 => rng.pick(&[0.0, -0.0, -30.0, -1.0]),
        2 => {
            let end = rng.pick(&[0.0, -30.0]);
            near(rng, end, 2)
        }
        3 => uniform(rng, -100.0, 50.0),
        _ => uniform(rng, -30.0, 0.0),
    };
    if value.is_finite() {
        value
    } else {
        -3.0
    }
}

/// A required gain of any kind.
pub fn gain(rng: &mut Rng) -> f64 {
    match rng.below(3) {
        0 => any(rng),
        1 => rng.pick(&[0.0, -0.0, 1.0, 1.5, -0.25, f64::NAN, f64::INFINITY]),
        _ => rng.unit(),
    }
}

/// A gain of eight digits at most.
pub fn short_gain(rng: &mut Rng) -> f64 {
    (1 + rng.below(256)) as f64 / 256.0
}

/// An event that 21 refuses.
pub fn spoil(block: &mut Block, rng: &mut Rng) {
    if block.events.len() < 3 {
        block.events = vec![0, 0, value(rng).to_bits()];
    }
    let at = 3 * rng.below(block.events.len() as u64 / 3) as usize;
    match rng.below(4) {
        0 => block.events[at + 2] = not_finite(rng).to_bits(),
        1 => block.events[at] = block.frames + rng.below(3),
        2 => block.events[at] = rng.word(),
        _ => block.events.extend([0, 0, 0]),
    }
}
