//! The threshold's smoother, the limiter's one parameter: Linear, as document 01
//! and `SmootherBank` have it.

#[cfg(feature = "probe")]
use crate::bank::Slot;
use crate::bank::{judged, Declared, Shape};
use crate::dsp::math;
use crate::dsp::sanitize::finite_or_zero;
use crate::layout::smoother as at;

/// What a smoother holds.
#[derive(Clone, Copy, Debug, PartialEq)]
pub struct Smoother {
    pub id: u32,
    pub cur: f64,
    pub target: f64,
    pub low: f64,
    pub high: f64,
    pub default: f64,
    pub steps: f64,
    pub left: u64,
    pub delta: f64,
    pub shape: Shape,
    pub coeff: f64,
    pub ms: f64,
}

/// The threshold as a limiter declares it.
pub fn declared(threshold: f64) -> Declared {
    Declared {
        id: 0,
        low: -30.0,
        high: 0.0,
        default: threshold,
        ms: 5.0,
        shape: Shape::Linear,
    }
}

impl Smoother {
    /// A slot that holds no parameter.
    pub const VACANT: Self = Self {
        id: 0,
        cur: 0.0,
        target: 0.0,
        low: 0.0,
        high: 0.0,
        default: 0.0,
        steps: 0.0,
        left: 0,
        delta: 0.0,
        shape: Shape::Step,
        coeff: 0.0,
        ms: 0.0,
    };

    /// The smoother of a declaration at a rate, standing at its default.
    pub fn new(d: &Declared, rate: u32) -> Self {
        Self {
            id: d.id,
            cur: d.default,
            target: d.default,
            low: d.low,
            high: d.high,
            default: d.default,
            steps: steps(d.ms, rate),
            left: 0,
            delta: 0.0,
            shape: d.shape,
            coeff: coefficient(d.shape, steps(d.ms, rate)),
            ms: d.ms,
        }
    }

    /// The smoother that words tell.
    pub fn of(words: &[u64]) -> Self {
        let float = |at: usize| f64::from_bits(words[at]);
        Self {
            id: words[at::ID] as u32,
            cur: float(at::CUR),
            target: float(at::TARGET),
            low: float(at::LOW),
            high: float(at::HIGH),
            default: float(at::DEFAULT),
            steps: float(at::STEPS),
            left: words[at::LEFT],
            delta: float(at::DELTA),
            shape: Shape::of(words[at::SHAPE]),
            coeff: float(at::COEFF),
            ms: float(at::MS),
        }
    }

    /// The words that tell it.
    pub fn words(&self) -> [u64; at::WORDS] {
        let mut words = [0; at::WORDS];
        words[at::ID] = u64::from(self.id);
        words[at::LEFT] = self.left;
        words[at::SHAPE] = self.shape as u64;
        for (at, float) in [
            (at::CUR, self.cur),
            (at::TARGET, self.target),
            (at::LOW, self.low),
            (at::HIGH, self.high),
            (at::DEFAULT, self.default),
            (at::STEPS, self.steps),
            (at::DELTA, self.delta),
            (at::COEFF, self.coeff),
            (at::MS, self.ms),
        ] {
            words[at] = float.to_bits();
        }
        words
    }

    /// What it holds beside its declaration's id, time and shape.
    #[cfg(feature = "probe")]
    pub fn slot(&self) -> Slot {
        Slot {
            cur: self.cur,
            target: self.target,
            low: self.low,
            high: self.high,
            default: self.default,
            steps: self.steps,
            delta: self.delta,
            coeff: self.coeff,
            left: self.left,
        }
    }

    /// The declaration that the smoother keeps.
    pub fn declared(&self) -> Declared {
        Declared {
            id: self.id,
            low: self.low,
            high: self.high,
            default: self.default,
            ms: self.ms,
            shape: self.shape,
        }
    }

    /// The bank's 18: the declaration passes 2 to 6 as the first one, and the
    /// derived values are its own.
    pub fn prepared(&self, rate: u32) -> bool {
        let due = Self::new(&self.declared(), rate);
        judged(&[self.declared()]).number == 0
            && self.steps.to_bits() == due.steps.to_bits()
            && self.coeff.to_bits() == due.coeff.to_bits()
    }

    /// The limiter's 18: the declaration is that of this threshold.
    pub fn declares(&self, threshold: f64) -> bool {
        let (due, kept) = (declared(threshold), self.declared());
        let floats = |d: &Declared| [d.low, d.high, d.default, d.ms].map(f64::to_bits);
        due.id == kept.id && floats(&due) == floats(&kept) && due.shape == kept.shape
    }

    /// 19: the target within the range.
    pub fn in_order(&self) -> bool {
        (self.low..=self.high).contains(&self.target)
    }

    /// A new target; one that equals the present restarts nothing.
    pub fn aim(&mut self, value: f64) {
        let target = value.clamp(self.low, self.high);
        if target != self.target {
            self.target = target;
            self.left = self.steps.ceil() as u64;
            self.delta = (target - self.cur).abs() / self.steps;
        }
    }

    /// The parameter call.
    pub fn set(&mut self, value: f64) {
        self.cur = value.clamp(self.low, self.high);
        self.target = self.cur;
        self.left = 0;
    }

    /// One update.
    pub fn step(&mut self) {
        if self.cur == self.target {
            self.left = 0;
        } else if self.left <= 1 {
            self.cur = self.target;
            self.left = 0;
        } else {
            self.cur += self.delta.copysign(self.target - self.cur);
            self.left -= 1;
        }
        self.cur = finite_or_zero(self.cur).clamp(self.low, self.high);
    }

    /// The default again; the step size stays.
    pub fn reset(&mut self) {
        self.cur = self.default;
        self.target = self.default;
        self.left = 0;
    }
}

/// Updates in a smoothing time, at least 1.
fn steps(ms: f64, rate: u32) -> f64 {
    (((ms * 1e-3) * f64::from(rate)) / 32.0).max(1.0)
}

fn coefficient(shape: Shape, steps: f64) -> f64 {
    match shape {
        Shape::OnePole => 1.0 - math::exp(-1.0 / steps),
        Shape::Step | Shape::Linear => 1.0,
    }
}
