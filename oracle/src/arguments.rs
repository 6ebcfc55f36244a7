//! Arguments for the leaf functions, aimed at where each of them branches.

use std::f64::consts::LN_2;

use crate::leaf::{Case, Op};
use crate::nearest;
use crate::numbers::{any, any_number, edge, log_uniform, near, not_finite, subnormal, uniform};
use crate::rng::Rng;
use crate::singles;

/// Upper halves of |x| at which `exp` changes its way (document 01). The
/// change lies at the start of the half itself or of the next one.
pub const EXP_HALVES: [u64; 3] = [0x3e30_0000, 0x3fd6_2e42, 0x3ff0_a2b2];

/// How many kinds `exp_argument` has.
pub const EXP_KINDS: u64 = 9;

/// An argument for `exp` of one kind; the kinds go round.
pub fn exp_argument(kind: u64, rng: &mut Rng) -> f64 {
    match kind % EXP_KINDS {
        0 => uniform(rng, -700.0, 0.0),
        1 => -log_uniform(rng, 0x408).abs(),
        2 => {
            let half = rng.pick(&EXP_HALVES) + rng.below(2);
            near(rng, -f64::from_bits(half << 32), 64)
        }
        // Close to 2^-28 the two ways often agree: only a stretch shows which
        // one was taken, so the halves beside a change are drawn from whole.
        3 => {
            let half = rng.pick(&EXP_HALVES) - 1 + rng.below(4);
            -f64::from_bits((half << 32) | (rng.word() >> 32))
        }
        4 => {
            // Half multiples of ln 2 are where the power of two changes.
            let x = -(rng.below(2020) as f64) * (LN_2 / 2.0);
            near(rng, x, 64)
        }
        5 => near(rng, -700.0, 64),
        6 => near_zero(rng),
        7 => outside(rng),
        _ => any(rng),
    }
}

/// Zeros and the smallest numbers of both signs: -0.0 is inside, 5e-324 not.
fn near_zero(rng: &mut Rng) -> f64 {
    match rng.below(3) {
        0 => rng.pick(&[0.0, -0.0, 5e-324, -5e-324, 1e-300, -1e-300]),
        1 => subnormal(rng),
        _ => log_uniform(rng, 0x3e4),
    }
}

/// Arguments that `exp` refuses.
fn outside(rng: &mut Rng) -> f64 {
    match rng.below(4) {
        0 => not_finite(rng),
        1 => uniform(rng, -800.0, -700.5),
        2 => uniform(rng, 0.0, 800.0),
        _ => log_uniform(rng, 0x7fe).abs(),
    }
}

/// A random case of `op`.
pub fn draw(op: Op, rng: &mut Rng) -> Case {
    match op {
        Op::Exp => {
            let kind = rng.below(EXP_KINDS);
            Case::new(op, &[exp_argument(kind, rng)])
        }
        Op::FiniteOrZero | Op::FlushDenormal | Op::Abs => Case::new(op, &[any(rng)]),
        Op::Round | Op::Ceil => Case::new(op, &[fraction(rng)]),
        Op::Min | Op::Max | Op::Copysign => {
            let a = any(rng);
            Case::new(op, &[a, partner(a, rng)])
        }
        Op::Clamp => clamp_case(rng),
        Op::Narrow => Case::new(op, &[nearest::narrowed(rng)]),
        Op::Widen => Case::widen(singles::any(rng).to_bits()),
    }
}

/// A float close to a whole number or to a half, of every size.
fn fraction(rng: &mut Rng) -> f64 {
    let whole = (rng.word() >> rng.below(64)) as f64;
    match rng.below(4) {
        0 => near(rng, whole, 3),
        1 => near(rng, whole + 0.5, 3),
        2 => uniform(rng, 0.0, 5000.0),
        _ => any(rng),
    }
}

/// A second argument that is often equal, opposite or next to the first.
fn partner(a: f64, rng: &mut Rng) -> f64 {
    match rng.below(5) {
        0 => a,
        1 => -a,
        2 => near(rng, a, 2),
        3 => edge(rng),
        _ => any(rng),
    }
}

/// A value and two limits in order, often the limiter's own ones.
fn clamp_case(rng: &mut Rng) -> Case {
    let (low, high) = match rng.below(4) {
        0 => (0.0, 1.0),
        1 => (-30.0, 0.0),
        _ => {
            let (p, q) = (any_number(rng), any_number(rng));
            if p <= q {
                (p, q)
            } else {
                (q, p)
            }
        }
    };
    let x = match rng.below(4) {
        0 => near(rng, low, 2),
        1 => near(rng, high, 2),
        _ => any(rng),
    };
    Case::new(Op::Clamp, &[x, low, high])
}

#[cfg(test)]
mod tests {
    use super::*;
    use crate::leaf::LEAVES;

    #[test]
    fn every_drawn_case_is_one_that_the_rust_takes() {
        let mut rng = Rng::new(11);
        for op in LEAVES {
            for _ in 0..2000 {
                let case = draw(op, &mut rng);
                assert!(case.allowed(), "{case:x?}");
                let _ = case.rust();
            }
        }
    }

    #[test]
    fn exp_arguments_lie_on_both_sides_of_each_change() {
        let mut rng = Rng::new(5);
        for half in EXP_HALVES {
            let mut seen = [false; 2];
            for _ in 0..5000 {
                let h = exp_argument(2, &mut rng).abs().to_bits() >> 32;
                seen[0] |= h + 1 == half || h == half;
                seen[1] |= h == half || h == half + 1;
            }
            assert_eq!(seen, [true; 2]);
        }
    }
}
