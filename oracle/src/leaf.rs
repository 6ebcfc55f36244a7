//! The leaf functions as the Rust has them, each as one case with one answer.

use crate::dsp::{math, sanitize};
use crate::numbers::canonical;
use crate::sample::Sample;
use crate::singles;

/// The number by which document 01 refuses an argument of `exp`.
pub const REFUSED: u64 = 26;

/// A leaf function. The discriminant is its number in the recorded file.
#[derive(Clone, Copy, Debug, PartialEq, Eq)]
pub enum Op {
    FiniteOrZero = 1,
    FlushDenormal = 2,
    Exp = 3,
    Abs = 4,
    Min = 5,
    Max = 6,
    Clamp = 7,
    Copysign = 8,
    Round = 9,
    Ceil = 10,
    /// The nearest f32, as its 32 bits.
    Narrow = 11,
    /// The value of 32 bits.
    Widen = 12,
}

/// All leaf functions but `exp` and those of f32, which have layers of their own.
pub const LEAVES: [Op; 9] = [
    Op::FiniteOrZero,
    Op::FlushDenormal,
    Op::Abs,
    Op::Min,
    Op::Max,
    Op::Clamp,
    Op::Copysign,
    Op::Round,
    Op::Ceil,
];

impl Op {
    /// How many of a case's words are arguments.
    pub fn arity(self) -> usize {
        match self {
            Self::Min | Self::Max | Self::Copysign => 2,
            Self::Clamp => 3,
            _ => 1,
        }
    }
}

/// One call: the function and its arguments' bits, unused words being 0.
#[derive(Clone, Copy, Debug, PartialEq, Eq)]
pub struct Case {
    pub op: Op,
    pub words: [u64; 3],
}

/// What a call gives: a refusal's number or 0, and the answer's bits. The word
/// of a refusal is what it changed in the place of the answer: 0, nothing.
#[derive(Clone, Copy, Debug, PartialEq, Eq)]
pub struct Answer {
    pub status: u64,
    pub word: u64,
}

impl Answer {
    /// A finished call with a float for an answer.
    pub fn float(x: f64) -> Self {
        Self::count(canonical(x))
    }

    /// A finished call with a whole number for an answer.
    pub fn count(word: u64) -> Self {
        Self { status: 0, word }
    }

    /// A refused call.
    pub fn refused(status: u64) -> Self {
        Self { status, word: 0 }
    }
}

impl Case {
    /// A case of `op` whose missing arguments are 0.
    pub fn new(op: Op, args: &[f64]) -> Self {
        let mut words = [0; 3];
        for (word, x) in words.iter_mut().zip(args) {
            *word = x.to_bits();
        }
        Self { op, words }
    }

    /// The case that widens 32 bits.
    pub fn widen(bits: u32) -> Self {
        Self {
            op: Op::Widen,
            words: [u64::from(bits), 0, 0],
        }
    }

    /// The three arguments as floats.
    pub fn args(&self) -> [f64; 3] {
        self.words.map(f64::from_bits)
    }

    /// Whether the Rust takes this call at all: `clamp` panics unless its
    /// limits are numbers in order, and an f32 has 32 bits.
    pub fn allowed(&self) -> bool {
        let [_, low, high] = self.args();
        match self.op {
            Op::Clamp => low <= high,
            Op::Widen => self.words[0] <= u64::from(u32::MAX),
            _ => true,
        }
    }

    /// The running Rust's answer. Outside document 01's domain of `exp` the
    /// Rust answers too; there the refusal is what the port owes.
    pub fn rust(&self) -> Answer {
        let [a, b, c] = self.args();
        match self.op {
            Op::FiniteOrZero => Answer::float(sanitize::finite_or_zero(a)),
            Op::FlushDenormal => Answer::float(sanitize::flush_denormal(a)),
            Op::Exp if (-700.0..=0.0).contains(&a) => Answer::float(math::exp(a)),
            Op::Exp => Answer::refused(REFUSED),
            Op::Abs => Answer::float(a.abs()),
            Op::Min => Answer::float(a.min(b)),
            Op::Max => Answer::float(a.max(b)),
            Op::Clamp => Answer::float(a.clamp(b, c)),
            Op::Copysign => Answer::float(a.copysign(b)),
            Op::Round => Answer::count(a.round() as u64),
            Op::Ceil => Answer::count(a.ceil() as u64),
            Op::Narrow => Answer::count(u64::from(singles::canonical(f32::from_f64(a)))),
            Op::Widen => Answer::float(f32::from_bits(self.words[0] as u32).to_f64()),
        }
    }

    /// Whether the sign of the answer is nobody's promise: Rust leaves open
    /// which of two zeros `min` and `max` give, and a NaN has no sign that
    /// the proved code could read.
    pub fn open_sign(&self) -> bool {
        let [a, b, _] = self.args();
        match self.op {
            Op::Min | Op::Max => a == 0.0 && b == 0.0 && a.to_bits() != b.to_bits(),
            Op::Copysign => b.is_nan(),
            _ => false,
        }
    }
}

#[cfg(test)]
mod tests {
    use super::*;

    #[test]
    fn exp_is_refused_outside_its_domain_only() {
        for x in [f64::NAN, 5e-324, 1.0, f64::INFINITY, f64::NEG_INFINITY] {
            assert_eq!(Case::new(Op::Exp, &[x]).rust(), Answer::refused(REFUSED));
        }
        for x in [0.0, -0.0] {
            assert_eq!(Case::new(Op::Exp, &[x]).rust(), Answer::float(1.0));
        }
        let below = crate::numbers::stepped(-700.0, 1);
        assert_eq!(Case::new(Op::Exp, &[-700.0]).rust().status, 0);
        assert_eq!(Case::new(Op::Exp, &[below]).rust().status, REFUSED);
    }

    #[test]
    fn signs_are_open_for_unlike_zeros_and_nan_alone() {
        assert!(Case::new(Op::Min, &[0.0, -0.0]).open_sign());
        assert!(Case::new(Op::Copysign, &[1.0, f64::NAN]).open_sign());
        assert!(!Case::new(Op::Max, &[-0.0, -0.0]).open_sign());
        assert!(!Case::new(Op::Clamp, &[-0.0, 0.0, 1.0]).open_sign());
    }
}
