//! Sequences of required gains for the floor keeper and the gain step.

use crate::numbers::{any, edge, near, not_finite, subnormal, uniform};
use crate::rng::Rng;

/// What a sequence of gains is like.
#[derive(Clone, Copy, Debug, PartialEq, Eq)]
pub enum Course {
    /// 1.0 but for a dip now and then, as in speech.
    Dips,
    /// Rising, so that every entry is kept.
    Rising,
    /// Falling, so that each gain drops all entries.
    Falling,
    /// Rising for a while from some level, again and again.
    Saw,
    /// A few values, so that many are equal.
    Levels,
    /// Both zeros and what stands beside them.
    Zeros,
    /// Uniform within 0 and 1.
    Uniform,
    /// The same gain throughout.
    Still,
    /// Good gains with damaged ones among them.
    Damaged,
    /// Any f64.
    Anything,
}

/// All kinds, in the order in which they are taken.
pub const COURSES: [Course; 10] = [
    Course::Dips,
    Course::Rising,
    Course::Falling,
    Course::Saw,
    Course::Levels,
    Course::Zeros,
    Course::Uniform,
    Course::Still,
    Course::Damaged,
    Course::Anything,
];

/// `length` gains of a kind, for a window of `look` + 1.
pub fn course(kind: Course, look: usize, length: usize, rng: &mut Rng) -> Vec<f64> {
    let tooth = tooth(look, rng);
    let levels: Vec<f64> = (0..=length / tooth).map(|_| rng.unit()).collect();
    (0..length)
        .map(|i| match kind {
            Course::Dips if rng.below(1 + look as u64 / 8) == 0 => uniform(rng, 0.2, 1.0),
            Course::Dips => 1.0,
            Course::Rising => (i + 1) as f64 / (length + 1) as f64,
            Course::Falling => 1.0 - i as f64 / length as f64,
            Course::Saw => {
                let level = levels[i / tooth];
                level + (1.0 - level) * (i % tooth) as f64 / tooth as f64
            }
            Course::Levels => rng.below(5) as f64 / 4.0,
            Course::Zeros => rng.pick(&[0.0, -0.0, -0.0, 5e-324, -5e-324, -1.0]),
            Course::Uniform => rng.unit(),
            Course::Still => levels[0],
            Course::Damaged if rng.below(4 + look as u64) == 0 => damaged(rng),
            Course::Damaged => uniform(rng, 0.5, 1.0),
            Course::Anything => any(rng),
        })
        .collect()
}

/// The length of a saw's tooth: any, or a little shorter or longer than the
/// window, which tries both ends of it.
fn tooth(look: usize, rng: &mut Rng) -> usize {
    match rng.below(2) {
        0 => 2 + rng.below(look as u64) as usize,
        _ => look - 3 + rng.below(8) as usize,
    }
}

/// What no required gain is.
fn damaged(rng: &mut Rng) -> f64 {
    match rng.below(6) {
        0 => not_finite(rng),
        1 => uniform(rng, -1.0, 0.0),
        2 => uniform(rng, 1.0, 3.0),
        3 => subnormal(rng),
        4 => near(rng, 1.0, 1),
        _ => edge(rng),
    }
}

#[cfg(test)]
mod tests {
    use super::*;
    use crate::mastering::limiter::inside;

    /// The rings that the kinds are there for do come about.
    #[test]
    fn kinds_fill_and_empty_the_ring() {
        let mut rng = Rng::new(4);
        let mut kept = |kind| {
            let mut limiter = inside::prepared(40, 0.0).expect("a good look");
            let gains = course(kind, 40, 200, &mut rng);
            let steps = gains.iter().map(|&g| inside::step(&mut limiter, g));
            steps.map(|s| s.kept).max().unwrap_or(0)
        };
        assert_eq!(kept(Course::Rising), 41);
        assert_eq!(kept(Course::Falling), 1);
        assert_eq!(kept(Course::Still), 1);
        assert!(kept(Course::Saw) >= 2);
        assert!(kept(Course::Levels) >= 3);
    }
}
