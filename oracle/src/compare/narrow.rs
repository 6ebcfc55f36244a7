//! An f64 to the nearest f32, and the value of 32 bits.

use super::leaves::check;
use super::{Difference, Settings};
use crate::arguments::draw;
use crate::leaf::{Case, Op};
use crate::nearest::{hard, subnormal, SUBNORMALS};
use crate::numbers::edges;
use crate::rng::Rng;

/// Cases of a subnormal f32's neighbourhood.
const EACH: u64 = 6;

/// Patterns of 32 bits.
const PATTERNS: u64 = 1 << 32;

/// Narrowings: the hard places, then subnormals in even steps for half of the
/// cases (all of them from 2 * 6 * 2^23 cases on), then random ones.
pub fn narrow(settings: &Settings) -> Result<u64, Difference> {
    let mut rng = Rng::new(settings.seed);
    let mut compared = 0;
    for x in hard().chain(edges()) {
        check(&Case::new(Op::Narrow, &[x]), &mut compared)?;
    }
    let numbers = (settings.count / 2 / EACH).clamp(1, u64::from(SUBNORMALS));
    let step = u64::from(SUBNORMALS).div_ceil(numbers);
    for number in (0..SUBNORMALS).step_by(step as usize) {
        for x in subnormal(number) {
            let x = if rng.below(2) == 0 { x } else { -x };
            check(&Case::new(Op::Narrow, &[x]), &mut compared)?;
        }
    }
    while compared < settings.count {
        check(&draw(Op::Narrow, &mut rng), &mut compared)?;
    }
    Ok(compared)
}

/// Patterns of 32 bits in even steps, all from 2^33 cases on: each widened, and
/// what the Rust gives narrowed back.
pub fn widen(settings: &Settings) -> Result<u64, Difference> {
    let count = (settings.count / 2).clamp(1, PATTERNS);
    // An odd step meets every last place of a pattern.
    let step = PATTERNS.div_ceil(count) | 1;
    let start = Rng::new(settings.seed).word() as u32;
    let mut compared = 0;
    for n in (0..PATTERNS).step_by(step as usize) {
        let case = Case::widen(start.wrapping_add(n as u32));
        check(&case, &mut compared)?;
        let wide = f64::from_bits(case.rust().word);
        check(&Case::new(Op::Narrow, &[wide]), &mut compared)?;
    }
    Ok(compared)
}
