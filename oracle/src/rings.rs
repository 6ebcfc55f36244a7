//! Floor keepers with their stores, forged: in order, as no history may have
//! left them.

#[cfg(any(test, feature = "probe"))]
mod damaged;

#[cfg(feature = "probe")]
pub use damaged::{forged, gain};

use crate::model::keeper::{Keeping, MOST_FRAMES};
use crate::numbers::{any, near, subnormal};
use crate::rng::Rng;

/// A keeper in order with random entries, as no history may have left it.
pub fn ordered(look: u64, rng: &mut Rng) -> Keeping {
    let places = look as usize + 1;
    let frame = frame(rng);
    let minima = rising_minima(frame.min(look + 1), rng);
    let marks = rising_marks(look, frame, minima.len(), rng);
    let head = rng.below(look + 1);
    // What lies outside the ring is never read, so it may be anything.
    let mut keeping = Keeping {
        state: [look, head, minima.len() as u64, frame],
        marks: (0..places).map(|_| rng.word()).collect(),
        minima: (0..places).map(|_| any(rng)).collect(),
    };
    for (i, (&mark, &minimum)) in marks.iter().zip(&minima).enumerate() {
        let place = (head as usize + i) % places;
        keeping.marks[place] = mark;
        keeping.minima[place] = minimum;
    }
    keeping
}

/// Frames taken: none, few, many, or all that there are.
fn frame(rng: &mut Rng) -> u64 {
    match rng.below(8) {
        0 => 0,
        1 => MOST_FRAMES - rng.below(3),
        2 => 1 + rng.below(MOST_FRAMES),
        _ => 1 + rng.below(100),
    }
}

/// Up to `most` minima within 0 and 1 that rise strictly; none only for 0.
fn rising_minima(most: u64, rng: &mut Rng) -> Vec<f64> {
    let count = if most == 0 { 0 } else { 1 + rng.below(most) };
    let mut minima: Vec<f64> = (0..count).map(|_| minimum(rng)).collect();
    minima.sort_by(f64::total_cmp);
    minima.dedup();
    minima
}

fn minimum(rng: &mut Rng) -> f64 {
    match rng.below(8) {
        0 => rng.pick(&[0.0, -0.0, 1.0, 5e-324, 0.5]),
        1 => near(rng, 0.5, 2),
        2 => subnormal(rng).abs(),
        _ => rng.unit(),
    }
}

/// `count` marks that rise strictly up to the last frame, none of them more
/// than a window back.
fn rising_marks(look: u64, frame: u64, count: usize, rng: &mut Rng) -> Vec<u64> {
    let mut marks: Vec<u64> = (frame.saturating_sub(look + 1)..frame).collect();
    while marks.len() > count {
        // The last one stays.
        let others = marks.len() as u64 - u64::from(count > 0);
        marks.remove(rng.below(others) as usize);
    }
    marks
}
