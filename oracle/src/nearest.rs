//! f64 that are hard to round to the nearest f32: those in the middle of two of
//! them, their neighbours, and the ends of the format. In random sound one in
//! 2^29 lies in a middle.

use crate::numbers::{any, log_uniform, near, stepped};
use crate::rng::Rng;
use crate::singles;

/// From here on an f64 becomes an infinity: 2^128 - 2^103.
pub const OVERFLOW: u64 = 0x47ef_ffff_f000_0000;

/// The exponent fields of an f64 below whose numbers all become 0, from which on
/// an f32 has all its digits, and above which all become infinities.
const LOWEST: u64 = 1023 - 151;
const NORMAL: u64 = 1023 - 126;
const HIGHEST: u64 = 1023 + 128;

/// Numbers of f32 below the smallest normal one, zero among them.
#[cfg(any(test, feature = "probe"))]
pub const SUBNORMALS: u32 = 1 << 23;

/// The last places of an f64's fraction that an f32 of its size lacks; below
/// 2^-149 all of them.
fn lost(exponent: u64) -> u64 {
    (29 + NORMAL.saturating_sub(exponent)).min(52)
}

/// The f64 with this exponent field and fraction.
fn at(exponent: u64, fraction: u64) -> f64 {
    f64::from_bits(exponent << 52 | fraction)
}

/// The middles of two neighbours among f32 with an exponent field of an f64: the
/// first, the last and some between them, next to even and to odd ones.
fn middles(exponent: u64) -> impl Iterator<Item = f64> {
    let lost = lost(exponent);
    let count = 1 << (52 - lost);
    let some = [0, 1, 2, count / 3, count / 2, count - 2, count - 1];
    let some = some.into_iter().filter(move |&n: &u64| n < count);
    some.map(move |n| at(exponent, (2 * n + 1) << (lost - 1)))
}

/// Every exponent's middles, and the ends of the format and of its parts, with
/// their neighbours and both signs.
pub fn hard() -> impl Iterator<Item = f64> {
    let middles = (LOWEST..=HIGHEST).flat_map(middles);
    let powers = (LOWEST..=HIGHEST).map(|exponent| at(exponent, 0));
    let close = powers.chain(middles).flat_map(|x| around(x, 2));
    let ends = [OVERFLOW, f64::from(f32::MAX).to_bits(), NORMAL << 52];
    let ends = ends.into_iter().map(f64::from_bits);
    let both = close.chain(ends.flat_map(|x| around(x, 64)));
    both.flat_map(|x| [x, -x])
}

/// A float with the nearest ones on either side.
fn around(x: f64, ulps: i64) -> impl Iterator<Item = f64> {
    (-ulps..=ulps).map(move |step| stepped(x, step))
}

/// A subnormal f32, widened, and the middle between it and the next one, each
/// with its neighbours; the last middle leads to the smallest normal.
#[cfg(any(test, feature = "probe"))]
pub fn subnormal(number: u32) -> impl Iterator<Item = f64> {
    let value = f64::from(f32::from_bits(number));
    let half = f64::from(f32::from_bits(1)) / 2.0;
    [value, value + half].into_iter().flat_map(|x| around(x, 1))
}

/// How many kinds `narrowed` has.
const KINDS: u64 = 9;

/// An f64 to be rounded, no kind being rare.
pub fn narrowed(rng: &mut Rng) -> f64 {
    match rng.below(KINDS) {
        0 => f64::from_bits(rng.word()),
        1 => any(rng),
        2 => middle(NORMAL, HIGHEST, rng),
        3 => middle(LOWEST, NORMAL, rng),
        // What a limiter gives out: a sample times a gain.
        4 => f64::from(singles::log_uniform(rng)) * rng.unit(),
        5 => {
            let gain = (1 + rng.below(256)) as f64 / 256.0;
            f64::from(singles::any(rng)) * gain
        }
        6 => {
            let x = f64::from(singles::any(rng));
            near(rng, x, 3)
        }
        7 => {
            let end = rng.pick(&[OVERFLOW, NORMAL << 52, (1023 - 150) << 52]);
            near(rng, f64::from_bits(end), 64)
        }
        _ => log_uniform(rng, HIGHEST),
    }
}

/// The middle of two f32, or one close to it, with an exponent field from `low`
/// to `high`.
fn middle(low: u64, high: u64, rng: &mut Rng) -> f64 {
    let exponent = low + rng.below(high - low + 1);
    let half = 1 << (lost(exponent) - 1);
    let fraction = rng.word() >> 12 & !(2 * half - 1) | half;
    let x = near(rng, at(exponent, fraction), 2);
    if rng.below(2) == 0 {
        x
    } else {
        -x
    }
}

#[cfg(test)]
mod tests {
    use super::*;

    /// Whether an f64 lies as far from the f32 below it as from the one above.
    fn is_middle(x: f64) -> bool {
        let near = x.abs() as f32;
        let (below, above) = (near.next_down(), near.next_up());
        let gap = |y: f32| (f64::from(y) - x.abs()).abs();
        gap(near) > 0.0 && (gap(near) == gap(below) || gap(near) == gap(above))
    }

    #[test]
    fn every_exponent_has_its_middles() {
        for exponent in NORMAL - 23..HIGHEST {
            let found: Vec<f64> = middles(exponent).collect();
            assert!(!found.is_empty() && found.len() <= 7);
            let inside = |x: &&f64| x.abs() < f64::from(f32::MAX);
            assert!(found.iter().filter(inside).all(|&x| is_middle(x)));
        }
        assert_eq!(middles(HIGHEST - 1).last(), Some(f64::from_bits(OVERFLOW)));
    }

    #[test]
    fn hard_places_are_among_them() {
        let all: Vec<u64> = hard().map(f64::to_bits).collect();
        let tiny = f64::from(f32::from_bits(1));
        for x in [
            f64::from_bits(OVERFLOW),
            f64::from_bits(OVERFLOW - 1),
            f64::from(f32::MAX),
            f64::from(f32::MIN_POSITIVE),
            tiny,
            tiny / 2.0,
            (tiny / 2.0).next_up(),
            1.0 + f64::from(f32::EPSILON) / 2.0,
        ] {
            assert!(all.contains(&x.to_bits()) && all.contains(&(-x).to_bits()));
        }
    }

    #[test]
    fn subnormals_come_with_their_middles() {
        for number in [0, 1, 2, SUBNORMALS - 2, SUBNORMALS - 1] {
            let six: Vec<f64> = subnormal(number).collect();
            assert_eq!(six[1], f64::from(f32::from_bits(number)));
            assert!(is_middle(six[4]));
            assert_eq!((six[3] as f32).to_bits(), number);
            assert_eq!((six[5] as f32).to_bits(), number + 1);
        }
    }

    /// Each of these is right nearly everywhere.
    #[test]
    fn wrong_roundings_are_found() {
        let nearest = |x: f64| x as f32;
        let down = |x: f64| if is_middle(x) { toward(x, 0.0) } else { x };
        let away = |x: f64| {
            if is_middle(x) {
                toward(x, f64::INFINITY)
            } else {
                x
            }
        };
        let no_subnormal = |x: f32| if x.is_subnormal() { 0.0 * x } else { x };
        let saturated = |x: f32| x.clamp(f32::MIN, f32::MAX);
        let signless = |x: f32| if x == 0.0 { 0.0 } else { x };
        let early = |x: f64| {
            if x.abs() > f64::from(f32::MAX) {
                x / 0.0
            } else {
                x
            }
        };
        let late = |x: f64| {
            if x.abs().to_bits() == OVERFLOW {
                toward(x, 0.0)
            } else {
                x
            }
        };
        let wrong: [&dyn Fn(f64) -> f32; 7] = [
            &|x| nearest(down(x)),
            &|x| nearest(away(x)),
            &|x| no_subnormal(nearest(x)),
            &|x| saturated(nearest(x)),
            &|x| signless(nearest(x)),
            &|x| nearest(early(x)),
            &|x| nearest(late(x)),
        ];
        for wrong in wrong {
            assert!(hard().any(|x| wrong(x).to_bits() != nearest(x).to_bits()));
        }
    }

    /// The next float on the way to a magnitude.
    fn toward(x: f64, magnitude: f64) -> f64 {
        stepped(x, if magnitude < x.abs() { -1 } else { 1 })
    }

    #[test]
    fn drawn_ones_are_often_in_the_middle() {
        let mut rng = Rng::new(1);
        let drawn: Vec<f64> = (0..9000).map(|_| narrowed(&mut rng)).collect();
        let count = |test: &dyn Fn(f64) -> bool| drawn.iter().filter(|x| test(**x)).count();
        assert!(count(&is_middle) > 500);
        assert!(count(&|x| x.is_finite() && (x as f32).is_infinite()) > 500);
        assert!(count(&|x| (x as f32).is_subnormal()) > 500);
        assert!(count(&f64::is_nan) > 100);
    }
}
