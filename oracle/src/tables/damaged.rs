//! Tables of every kind: the Rust's own and built ones, each aimed at a clause
//! of the rule or damaged at random.

use super::built::{built, flat, length, spike};
use super::edges::{aim, limit};
use crate::mastering::limiter::inside;
use crate::model::weights::{middle, part, sum, WHOLE};
use crate::numbers::{any, edge, near, not_finite, stepped, subnormal, uniform};
use crate::rng::Rng;

/// Looks whose tables are damaged, the short ones more often than the long.
const LOOKS: [usize; 16] = [
    11, 12, 13, 14, 15, 18, 20, 23, 31, 40, 56, 66, 72, 72, 144, 288,
];

/// Long ones, drawn once in a while.
const LONG: [usize; 3] = [1000, 4095, 4096];

/// The Rust's weights for a look.
pub fn own(look: usize) -> Result<Vec<f64>, String> {
    let limiter = inside::prepared(look, 0.0)?;
    Ok(inside::weights(&limiter).to_vec())
}

/// The tables that damage starts from.
pub struct Tables {
    short: Vec<Vec<f64>>,
    long: Vec<Vec<f64>>,
}

impl Tables {
    pub fn new() -> Result<Self, String> {
        Ok(Self {
            short: LOOKS.into_iter().map(own).collect::<Result<_, _>>()?,
            long: LONG.into_iter().map(own).collect::<Result<_, _>>()?,
        })
    }

    /// One of the Rust's own tables.
    fn drawn(&self, rng: &mut Rng) -> Vec<f64> {
        let list = match rng.below(64) {
            0 => &self.long,
            _ => &self.short,
        };
        list[rng.below(list.len() as u64) as usize].clone()
    }

    /// A table of some kind, damaged or not.
    pub fn damaged(&self, rng: &mut Rng) -> Vec<f64> {
        match rng.below(16) {
            0..=3 => self.changed(rng),
            4 => ended(rng),
            5 if rng.below(4) == 0 => wrapped(rng),
            5 => built(length(rng), rng),
            6..=8 => aimed(self.drawn(rng), rng),
            _ => aimed(built(length(rng), rng), rng),
        }
    }

    /// One of the Rust's own with something changed, or another altogether.
    fn changed(&self, rng: &mut Rng) -> Vec<f64> {
        let mut table = self.drawn(rng);
        match rng.below(8) {
            0 => *place(&mut table, rng) = odd(rng),
            1 => {
                let target = limit(table.len(), 1, rng);
                shifted(&mut table, target);
            }
            2 => {
                let weight = place(&mut table, rng);
                *weight = near(rng, *weight, 2000);
            }
            3 => table.reverse(),
            4 => {
                let more = rng.below(20) as usize;
                table.extend((0..more).map(|_| tiny(rng)));
            }
            5 => {
                table.remove(rng.below(table.len() as u64) as usize);
            }
            6 => table = even(rng),
            _ => table = normalized(table.len(), rng),
        }
        table
    }
}

/// The table at the edge of a clause.
fn aimed(mut table: Vec<f64>, rng: &mut Rng) -> Vec<f64> {
    aim(&mut table, rng);
    table
}

/// A random place of a table.
fn place<'a>(table: &'a mut [f64], rng: &mut Rng) -> &'a mut f64 {
    let at = rng.below(table.len() as u64) as usize;
    &mut table[at]
}

/// A weight that is refused, or hardly is one.
fn odd(rng: &mut Rng) -> f64 {
    match rng.below(8) {
        0 => rng.pick(&[0.0, -0.0]),
        1 => not_finite(rng),
        2 => -rng.unit(),
        3 => stepped(1.0, rng.below(3) as i64),
        4 => uniform(rng, 1.0, 20.0),
        5 => tiny(rng),
        6 => edge(rng),
        _ => any(rng),
    }
}

/// A weight above 0 whose whole part is 0.
fn tiny(rng: &mut Rng) -> f64 {
    let smallest = f64::from_bits(1);
    match rng.below(3) {
        0 => subnormal(rng).abs().max(smallest),
        1 => rng.pick(&[smallest, f64::MIN_POSITIVE]),
        _ => rng.unit().max(smallest) / WHOLE as f64,
    }
}

/// Move the least weight so that the whole parts sum up to `target`: exactly,
/// where it is below 2^-7, since such weights have every whole part.
fn shifted(table: &mut [f64], target: u128) {
    let others = sum(table);
    let Some(least) = table.iter_mut().min_by(|p, q| p.total_cmp(q)) else {
        return;
    };
    let whole = (target + part(*least)).saturating_sub(others);
    *least = whole as f64 / WHOLE as f64;
}

/// The same weight everywhere: near 1 / n, or 1.0 so often that a sum of 64
/// bits would come round to 2^60 again.
fn even(rng: &mut Rng) -> Vec<f64> {
    match rng.below(16) {
        0 => vec![1.0; 1 + 16 * rng.below(256) as usize],
        1 => {
            let n = 4096 + rng.below(3) as usize;
            vec![1.0 / n as f64; n]
        }
        2 => Vec::new(),
        3 => vec![1.0; 1 + rng.below(40) as usize],
        _ => {
            let n = 1 + rng.below(64) as usize;
            vec![near(rng, 1.0 / n as f64, 20); n]
        }
    }
}

/// Random weights that were made to sum up to about 1.
fn normalized(weights: usize, rng: &mut Rng) -> Vec<f64> {
    let table: Vec<f64> = (0..weights).map(|_| rng.unit()).collect();
    let sum: f64 = table.iter().sum();
    table.iter().map(|w| w / sum).collect()
}

/// A weight at an end of its range or past it, in a table where nothing else
/// need be wrong.
fn ended(rng: &mut Rng) -> Vec<f64> {
    let mut table = spike(1 + rng.below(9) as usize, rng);
    let (last, middle) = (table.len() - 1, middle(table.len()));
    let smallest = f64::from_bits(1);
    let end = rng.pick(&[0.0, -0.0, smallest, -smallest]);
    match rng.below(4) {
        0 => table[0] = end,
        1 => table[last] = end,
        2 => table[middle] = stepped(1.0, rng.below(7) as i64 - 2),
        _ => *place(&mut table, rng) = odd(rng),
    }
    table
}

/// A table whose sum is 2^60 but for a multiple of 2^64.
fn wrapped(rng: &mut Rng) -> Vec<f64> {
    let places = 18 + rng.below(40);
    let rounds = 1 + rng.below((places - 2) / 16);
    flat(places as usize, u128::from(1 + 16 * rounds) * WHOLE, rng)
}

#[cfg(test)]
mod tests {
    use super::*;
    use crate::model::weights::{slack, summed};

    #[test]
    fn a_moved_weight_lands_at_the_limit_and_one_past_it() {
        for look in [40, 72, 4096] {
            let table = own(look).expect("a good look");
            let slack = slack(table.len());
            for (target, taken) in [
                (WHOLE - slack, true),
                (WHOLE + slack, true),
                (WHOLE - slack - 1, false),
                (WHOLE + slack + 1, false),
            ] {
                let mut moved = table.clone();
                shifted(&mut moved, target);
                assert_eq!(sum(&moved), target);
                assert_eq!(summed(&moved), taken);
            }
        }
    }
}
