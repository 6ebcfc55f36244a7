//! The leaf functions.

use crate::leaf::{Answer, Case, Op};

extern "C" {
    fn probe_finite_or_zero(x: f64) -> f64;
    fn probe_flush_denormal(x: f64) -> f64;
    fn probe_exp(x: f64, out: *mut f64) -> u32;
    fn probe_abs(x: f64) -> f64;
    fn probe_min(a: f64, b: f64) -> f64;
    fn probe_max(a: f64, b: f64) -> f64;
    fn probe_clamp(x: f64, low: f64, high: f64) -> f64;
    fn probe_copysign(a: f64, b: f64) -> f64;
    fn probe_round(x: f64) -> u64;
    fn probe_ceil(x: f64) -> u64;
    fn probe_narrow(x: f64) -> u32;
    fn probe_widen(n: u32) -> f64;
}

/// The proved code's answer to a leaf case.
pub fn leaf(case: &Case) -> Answer {
    let [a, b, c] = case.args();
    if case.op == Op::Exp {
        return exp(a);
    }
    // SAFETY: the functions take numbers, keep nothing and always return.
    unsafe {
        match case.op {
            Op::FiniteOrZero => Answer::float(probe_finite_or_zero(a)),
            Op::FlushDenormal => Answer::float(probe_flush_denormal(a)),
            Op::Abs => Answer::float(probe_abs(a)),
            Op::Min => Answer::float(probe_min(a, b)),
            Op::Max => Answer::float(probe_max(a, b)),
            Op::Clamp => Answer::float(probe_clamp(a, b, c)),
            Op::Copysign => Answer::float(probe_copysign(a, b)),
            Op::Round => Answer::count(probe_round(a)),
            Op::Ceil => Answer::count(probe_ceil(a)),
            // One pattern is due for every NaN, so these bits stand as they are.
            Op::Narrow => Answer::count(u64::from(probe_narrow(a))),
            Op::Widen => Answer::float(probe_widen(case.words[0] as u32)),
            Op::Exp => unreachable!("answered above"),
        }
    }
}

/// `exp`, whose refusal must leave the place of the answer alone.
fn exp(x: f64) -> Answer {
    // No power of e is negative: an answer that was not written shows too.
    const BEFORE: f64 = -12345.0;
    let mut out = BEFORE;
    // SAFETY: `out` is a live place for one f64, lent for the call alone.
    match u64::from(unsafe { probe_exp(x, &mut out) }) {
        0 => Answer::float(out),
        status => Answer {
            status,
            word: out.to_bits() ^ BEFORE.to_bits(),
        },
    }
}
