//! The weights rule, over whole numbers and IEEE comparisons. Places are counted
//! from 0.

/// 2^60, what the whole parts are to sum up to.
pub const WHOLE: u128 = 1 << 60;

/// How far from it the sum may be, for each weight.
const SLACK: u128 = 512;

/// How far the whole parts at mirrored places may be apart.
pub const APART: u128 = 4096;

/// The whole part of weight × 2^60, read off the bits of a weight above 0 and
/// at most 1.
pub fn part(weight: f64) -> u128 {
    let bits = weight.to_bits();
    let (exponent, fraction) = (bits >> 52, bits & ((1 << 52) - 1));
    // The weight is mantissa × 2^(power - 1075), a subnormal one having power 1.
    let (mantissa, power) = match exponent {
        0 => (fraction, 1),
        _ => (fraction | (1 << 52), exponent),
    };
    match power {
        1015.. => u128::from(mantissa) << (power - 1015),
        _ => u128::from(mantissa)
            .checked_shr(1015 - power as u32)
            .unwrap_or(0),
    }
}

/// The sum of the whole parts. No list of weights that fits a memory gets
/// past 2^128.
pub fn sum(weights: &[f64]) -> u128 {
    weights.iter().map(|&w| part(w)).sum()
}

/// The furthest that the sum of so many weights may be from 2^60.
pub fn slack(weights: usize) -> u128 {
    SLACK * weights as u128
}

/// Up to this place weights rise: (L - 1) / 2, rounded down.
pub fn middle(weights: usize) -> usize {
    weights.saturating_sub(1) / 2
}

/// Each weight above 0 and at most 1.0.
pub fn ranged(weights: &[f64]) -> bool {
    weights.iter().all(|&w| w > 0.0 && w <= 1.0)
}

/// The sum of the whole parts at most 512 × L from 2^60.
pub fn summed(weights: &[f64]) -> bool {
    sum(weights).abs_diff(WHOLE) <= slack(weights.len())
}

/// The whole parts at places i and L - 1 - i at most 4,096 apart.
pub fn mirrored(weights: &[f64]) -> bool {
    let places = weights.len();
    (0..places).all(|i| part(weights[i]).abs_diff(part(weights[places - 1 - i])) <= APART)
}

/// Each weight from place 1 up to the middle place above the one before it.
pub fn rising(weights: &[f64]) -> bool {
    (1..=middle(weights.len())).all(|i| weights[i - 1] < weights[i])
}

/// Whole parts are told of weights in their range, which is therefore first.
pub fn accepted(weights: &[f64]) -> bool {
    ranged(weights) && summed(weights) && mirrored(weights) && rising(weights)
}

#[cfg(test)]
mod tests {
    use super::*;
    use crate::numbers::stepped;

    /// The weight with this whole part and nothing below it.
    fn of(whole: u128) -> f64 {
        whole as f64 / WHOLE as f64
    }

    #[test]
    fn parts_are_whole_and_exact() {
        assert_eq!(part(1.0), WHOLE);
        assert_eq!(part(0.5), WHOLE / 2);
        assert_eq!(part(stepped(1.0, -1)), WHOLE - 128);
        assert_eq!(part(of(1)), 1);
        assert_eq!(part(stepped(of(1), -1)), 0);
        assert_eq!(part(1.75 / WHOLE as f64), 1);
        for tiny in [5e-324, f64::MIN_POSITIVE, stepped(f64::MIN_POSITIVE, -1)] {
            assert_eq!(part(tiny), 0);
        }
    }

    /// Every part up to 2^53 is that of its own quotient.
    #[test]
    fn parts_come_back_from_quotients() {
        let mut rng = crate::rng::Rng::new(1);
        for _ in 0..10_000 {
            let whole = rng.word() >> (11 + rng.below(53));
            assert_eq!(part(of(whole.into())), u128::from(whole));
        }
    }

    /// A weight at its limit is accepted in a table that keeps all else.
    #[test]
    fn weights_outside_their_range_are_refused() {
        for odd in [0.0, -0.0, -0.5, f64::NAN, f64::INFINITY, stepped(1.0, 1)] {
            assert!(!ranged(&[odd]));
            assert!(!accepted(&[odd]));
            assert!(!accepted(&[5e-324, 1.0, odd]));
            assert!(!accepted(&[odd, 1.0, 5e-324]));
        }
        assert!(accepted(&[1.0]));
        assert!(accepted(&[5e-324, 1.0, 5e-324]));
        assert!(!accepted(&[5e-324, stepped(1.0, 1), 5e-324]));
        assert!(!accepted(&[]));
    }

    /// The outer weights of three or four have every whole part, so that the sum
    /// meets its limit and one past it; those of one and two go in steps.
    #[test]
    fn a_sum_is_accepted_up_to_its_limit() {
        let small = WHOLE >> 10;
        for off in [1536, -1536i128] {
            let three = |off: i128| {
                let last = small.wrapping_add_signed(off);
                [of(small), of(WHOLE - 2 * small), of(last)]
            };
            assert!(accepted(&three(off)));
            assert!(!summed(&three(off + off.signum())));
            assert!(!accepted(&three(off + off.signum())));
        }
        for off in [2048, -2048i128] {
            let half = of(WHOLE / 2 - small);
            let four = |off: i128| [of(small), half, half, of(small.wrapping_add_signed(off))];
            assert!(accepted(&four(off)));
            assert!(!accepted(&four(off + off.signum())));
        }
        assert!(accepted(&[stepped(1.0, -4)]));
        assert!(!accepted(&[stepped(1.0, -5)]));
        assert!(accepted(&[stepped(0.5, -8), stepped(0.5, -8)]));
        assert!(!accepted(&[stepped(0.5, -8), stepped(0.5, -9)]));
        assert!(accepted(&[stepped(0.5, 4), stepped(0.5, 4)]));
        assert!(!accepted(&[stepped(0.5, 4), stepped(0.5, 5)]));
    }

    /// 64 bits would not tell this sum of 17 × 2^60 from 2^60.
    #[test]
    fn a_sum_does_not_come_round() {
        let least = 17 * WHOLE / 18 / 128 * 128 - 512;
        let rising: Vec<f64> = (0..9).map(|i| of(least + 128 * i)).collect();
        let table: Vec<f64> = rising.iter().chain(rising.iter().rev()).copied().collect();
        assert!((sum(&table) as u64).abs_diff(WHOLE as u64) <= 512 * 18);
        assert!(ranged(&table) && mirrored(&table) && super::rising(&table));
        assert!(!accepted(&table));
    }

    #[test]
    fn mirrored_parts_are_accepted_up_to_their_limit() {
        let small = WHOLE >> 10;
        for by in [4095, 4096, 4097, -4095, -4096, -4097i128] {
            let taken = by.abs() <= 4096;
            let last = of(small.wrapping_add_signed(by));
            // The middle gives what the last one takes, as far as it can.
            let rest = |inner: u128, by: i128| of(inner.wrapping_add_signed(-by / 128 * 128));
            let odd = [of(small), rest(WHOLE - 2 * small, by), last];
            let half = rest(WHOLE / 2 - small, by / 2);
            let even = [of(small), half, half, last];
            for table in [&odd[..], &even] {
                assert!(ranged(table) && summed(table) && rising(table));
                assert_eq!(mirrored(table), taken, "{by}");
                assert_eq!(accepted(table), taken, "{by}");
            }
        }
    }

    /// The middle pair of an even number is a pair too; below a half weights are
    /// 64 apart, above it 128.
    #[test]
    fn the_middle_pair_is_mirrored() {
        let (low, high) = (stepped(0.5, -32), stepped(0.5, 16));
        assert!(accepted(&[low, high]));
        assert!(accepted(&[high, low]));
        assert!(!accepted(&[stepped(low, -1), high]));
        assert!(!accepted(&[high, stepped(low, -1)]));
        assert!(accepted(&[5e-324, high, low, 5e-324]));
        assert!(!accepted(&[5e-324, high, stepped(low, -1), 5e-324]));
    }

    /// What lies below the whole part does not count.
    #[test]
    fn whole_parts_are_compared() {
        let almost = stepped(of(4097), -1);
        assert!(accepted(&[5e-324, 1.0, of(1000)]));
        assert!(accepted(&[5e-324, of(WHOLE - 4096), almost]));
        assert!(accepted(&[almost, of(WHOLE - 4096), 5e-324]));
        assert!(!accepted(&[5e-324, of(WHOLE - 4096), of(4097)]));
        assert!(!accepted(&[stepped(of(1), -1), of(WHOLE - 4096), of(4097)]));
    }

    /// Equal weights rise up to place 0 alone.
    #[test]
    fn of_one_and_two_weights_none_has_to_rise() {
        assert!(accepted(&[0.5, 0.5]));
        assert!(accepted(&[0.5, stepped(0.5, -1)]));
        assert!(accepted(&[stepped(0.5, -1), 0.5]));
        for equal in 3..100 {
            let table = vec![1.0 / equal as f64; equal];
            assert!(ranged(&table) && summed(&table) && mirrored(&table));
            assert!(!accepted(&table));
        }
    }

    /// By a last place at least up to the middle place; past it nothing is asked.
    #[test]
    fn weights_rise_strictly_up_to_the_middle_place() {
        for places in 3..20 {
            let (last, middle) = (places - 1, (places - 1) / 2);
            let climb = |i: usize| 2 * i.min(last - i) as i64 - 4;
            let table: Vec<f64> = (0..places)
                .map(|i| stepped(1.0 / places as f64, climb(i)))
                .collect();
            assert!(accepted(&table), "{places}");
            for (i, step) in (1..=last).flat_map(|i| [(i, -1), (i, 0), (i, 1)]) {
                let mut other = table.clone();
                other[i] = stepped(table[i - 1], step);
                let taken = i > middle || step > 0;
                assert_eq!(accepted(&other), taken, "{places}: {i}, {step}");
            }
        }
    }

    /// The whole parts may be equal where the weights rise.
    #[test]
    fn weights_are_compared_as_they_are() {
        let rises = [5e-324, 1e-323, 1.0, 1e-323, 5e-324];
        assert!(accepted(&rises));
        let falls = [1e-323, 5e-324, 1.0, 5e-324, 1e-323];
        assert!(!accepted(&falls));
    }

    /// It sums correctly and rises all the way.
    #[test]
    fn a_late_peak_is_refused() {
        let late = [0.0625, 0.125, 0.1875, 0.25, 0.375];
        assert!(ranged(&late) && summed(&late) && rising(&late));
        assert!(!accepted(&late));
    }
}
