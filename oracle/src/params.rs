//! Random declarations of parameters and calls of their bank.

use crate::bank::{Call, Declared, Shape, LONGEST_MS, MOST};
use crate::numbers::{any, edge, huge, log_uniform, near, not_finite, subnormal, uniform};
use crate::rng::Rng;

/// Rates of every size; the bank takes any.
const RATES: [u32; 10] = [
    0,
    1,
    8_000,
    44_100,
    48_000,
    48_000,
    96_000,
    192_000,
    1_000_000,
    u32::MAX,
];

/// Ranges at which something may change.
const RANGES: [(f64, f64); 12] = [
    (-30.0, 0.0),
    (-30.0, 0.0),
    (0.0, 1.0),
    (-1.0, 1.0),
    (20.0, 20_000.0),
    (-f64::MAX, f64::MAX),
    (-1e308, 1.7e308),
    (-f64::MAX, -1e300),
    (-0.0, 0.0),
    (0.0, -0.0),
    (0.0, 5e-324),
    (3.0, 3.0),
];

/// A rate for a bank.
pub fn rate(rng: &mut Rng) -> u32 {
    match rng.below(3) {
        0 => rng.word() as u32,
        _ => rng.pick(&RATES),
    }
}

/// A bank's declarations; one time in `bad` a bad one is among them, or they
/// are too many.
pub fn declarations(bad: u64, rng: &mut Rng) -> Vec<Declared> {
    let count = match rng.below(16) {
        0 => 0,
        1 => MOST,
        2 => 1 + rng.below(MOST as u64) as usize,
        _ => 1 + rng.below(3) as usize,
    };
    let mut list: Vec<Declared> = (0..count as u32).map(|id| declared(id, rng)).collect();
    if rng.below(bad) == 0 {
        match rng.below(8) {
            0 => list.extend((list.len() as u32..9).map(|id| declared(id, rng))),
            _ if list.is_empty() => {}
            _ => {
                let at = rng.below(list.len() as u64) as usize;
                damage(&mut list[at], rng);
            }
        }
    }
    list
}

fn declared(id: u32, rng: &mut Rng) -> Declared {
    let (low, high) = range(rng);
    Declared {
        id,
        low,
        high,
        default: inside(low, high, rng),
        ms: time(rng),
        shape: rng.pick(&[Shape::Step, Shape::Linear, Shape::Linear, Shape::OnePole]),
    }
}

fn range(rng: &mut Rng) -> (f64, f64) {
    let (p, q) = match rng.below(6) {
        0 => (huge(rng), huge(rng)),
        1 => (log_uniform(rng, 0x7fe), log_uniform(rng, 0x7fe)),
        2 => (subnormal(rng), subnormal(rng)),
        _ => return rng.pick(&RANGES),
    };
    (p.min(q), p.max(q))
}

/// A value of a range: an end, zero, or one between; anything where the range
/// is a bad one.
pub fn inside(low: f64, high: f64, rng: &mut Rng) -> f64 {
    let part = rng.unit();
    let value = match rng.below(6) {
        0 => low,
        1 => high,
        2 => 0.0,
        // Half of each end first: the difference of huge ends overflows.
        _ => low * (1.0 - part) + high * part,
    };
    // Not by `max` and `min`, which may take either of two zeros.
    if value < low {
        low
    } else if value > high {
        high
    } else {
        value
    }
}

fn time(rng: &mut Rng) -> f64 {
    match rng.below(8) {
        0 => rng.pick(&[LONGEST_MS, 5e-324, 1e-3, 1.0]),
        1 => uniform(rng, 0.001, LONGEST_MS),
        2..=3 => uniform(rng, 0.5, 50.0),
        _ => rng.pick(&[5.0, 5.0, 20.0]),
    }
}

/// Change one thing for the worse, mostly.
fn damage(declared: &mut Declared, rng: &mut Rng) {
    match rng.below(8) {
        0 => declared.id ^= 1 << rng.below(32),
        1 => declared.low = any(rng),
        2 => declared.high = any(rng),
        3 => std::mem::swap(&mut declared.low, &mut declared.high),
        4 => declared.default = rng.pick(&[f64::NAN, f64::INFINITY, -f64::INFINITY]),
        5 => declared.default = near(rng, declared.high, 1),
        6 => declared.ms = near(rng, LONGEST_MS, 1),
        _ => declared.ms = any(rng),
    }
}

/// A call of a bank of these parameters; steps are the most common.
pub fn call(declared: &[Declared], rng: &mut Rng) -> Call {
    let id = match rng.below(24) {
        0 => rng.word() as u32,
        1 => declared.len() as u32,
        _ => rng.below(declared.len().max(1) as u64) as u32,
    };
    let value = value(declared.get(id as usize), rng);
    match rng.below(32) {
        0..=17 => Call::Step,
        18..=25 => Call::Target { id, value },
        26..=28 => Call::Immediate { id, value },
        29..=30 => Call::Value { id },
        _ => Call::Reset,
    }
}

fn value(declared: Option<&Declared>, rng: &mut Rng) -> f64 {
    let Some(declared) = declared else {
        return any(rng);
    };
    match rng.below(16) {
        0 => not_finite(rng),
        1 => any(rng),
        2 => edge(rng),
        3 => declared.default,
        4 => near(rng, declared.high, 2),
        _ => inside(declared.low, declared.high, rng),
    }
}

#[cfg(test)]
mod tests {
    use super::*;
    use crate::bank::judged;

    #[test]
    fn every_refusal_is_met_and_most_declarations_are_good() {
        let mut rng = Rng::new(1);
        let mut met = [0; 7];
        for _ in 0..40_000 {
            met[judged(&declarations(4, &mut rng)).number as usize] += 1;
        }
        assert!(met[0] > 30_000, "{met:?}");
        assert!(met[1..].iter().all(|&n| n > 500), "{met:?}");
    }

    #[test]
    fn ranges_overflow_at_times() {
        let mut rng = Rng::new(1);
        let wide = (0..1000).filter(|_| {
            let (low, high) = range(&mut rng);
            (high - low).is_infinite()
        });
        assert!(wide.count() > 50);
    }
}
