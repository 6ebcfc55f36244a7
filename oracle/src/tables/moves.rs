//! Weights moved by whole parts of 2^-60, and sums brought to a number.

use crate::model::weights::{middle, part, sum, WHOLE};
use crate::rng::Rng;

/// How far the whole parts of neighbouring weights are apart about this one:
/// below 2^-7 there is a weight for each whole part.
pub fn grain(whole: u128) -> u128 {
    1 << (128 - whole.leading_zeros()).saturating_sub(53)
}

/// The weight of a whole part, or the nearest that there is.
pub fn weight(whole: u128) -> f64 {
    whole as f64 / WHOLE as f64
}

/// Some weight above 0 with the whole part of this one.
pub fn frayed(old: f64, rng: &mut Rng) -> f64 {
    let whole = part(old);
    let first = weight(whole).to_bits().max(1);
    let past = weight(whole + 1).to_bits();
    match past.saturating_sub(first) {
        // Larger weights have nothing below their whole part.
        0 => old,
        many => f64::from_bits(first + rng.below(many)),
    }
}

/// Move a weight's whole part; what lies below it stays where there is room.
fn add(weight: &mut f64, by: i128) {
    *weight += by as f64 / WHOLE as f64;
}

/// What the sum lacks.
fn lack(table: &[f64], target: u128) -> i128 {
    target.wrapping_sub(sum(table)) as i128
}

/// All weights alike, in steps that the largest can take too: differences and
/// rises stay. The sum ends less than a step a weight below the target. False,
/// and nothing done, where the least weight has no room.
pub fn spread(table: &mut [f64], target: u128) -> bool {
    let parts = || table.iter().map(|&w| part(w));
    let (Some(least), Some(most)) = (parts().min(), parts().max()) else {
        return false;
    };
    let step = grain(most) as i128;
    let by = lack(table, target).div_euclid(step * table.len() as i128) * step;
    let room = by.saturating_add_unsigned(least) > 0;
    if room {
        table.iter_mut().for_each(|w| add(w, by));
    }
    room
}

/// The middle weight, or the middle two alike: the sum ends within two of their
/// grains of the target.
pub fn onto_middle(table: &mut [f64], target: u128) {
    let at = middle(table.len());
    let step = grain(part(table[at])) as i128;
    let half = lack(table, target).div_euclid(2 * step) * step;
    add(&mut table[at], half);
    let mirror = table.len() - 1 - at;
    add(&mut table[mirror], half);
}

/// The last weight, which need not rise: where it is below 2^-7 the sum ends at
/// the target.
pub fn onto_last(table: &mut [f64], target: u128) {
    let by = lack(table, target);
    if let Some(last) = table.last_mut() {
        add(last, by);
    }
}

/// About 2^60 again, with differences and rises as they are where that can be.
pub fn put_back(table: &mut [f64]) {
    if !spread(table, WHOLE) {
        onto_middle(table, WHOLE);
    }
}
