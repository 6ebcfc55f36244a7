//! The parameter bank.

use crate::bank::{Answer, Call, Declared, Refusal, Slot, MOST};
use crate::layout::bank::{COUNT, TOLD_COUNT, TOLD_VALUE, WORDS};
use crate::layout::smoother::{self, DEFAULT, HIGH, ID, LOW, MS, SHAPE};
use crate::model::threshold::Smoother;
use crate::numbers::canonical;

extern "C" {
    fn probe_bank_setup(count: usize, rate: u32, words: *mut [u64; WORDS]) -> u32;
    fn probe_bank_call(op: u32, id: u32, value: f64, words: *mut [u64; WORDS]) -> u32;
}

/// What the place of a told value holds before a call.
const BEFORE: f64 = -12345.0;

/// A bank of the proved code, as it crosses.
#[derive(Clone, Debug)]
pub struct Bank {
    pub words: [u64; WORDS],
}

impl Bank {
    /// A setup; it hands back the bank even where it is refused.
    pub fn set_up(declared: &[Declared], rate: u32) -> (Refusal, Self) {
        let mut bank = Self {
            words: [u64::MAX; WORDS],
        };
        for (i, d) in declared.iter().take(MOST).enumerate() {
            let slot = bank.slot_mut(i);
            slot[ID] = u64::from(d.id);
            slot[SHAPE] = d.shape as u64;
            for (at, float) in [
                (LOW, d.low),
                (HIGH, d.high),
                (DEFAULT, d.default),
                (MS, d.ms),
            ] {
                slot[at] = float.to_bits();
            }
        }
        // SAFETY: the pointer is that of a live array, lent for the call alone.
        let number = unsafe { probe_bank_setup(declared.len(), rate, &mut bank.words) };
        let index = bank.words[TOLD_COUNT] as usize;
        (Refusal { number, index }, bank)
    }

    /// One call, and the count that it tells beside its answer.
    pub fn call(&mut self, call: &Call) -> (Answer, u64) {
        let (op, id, value) = match *call {
            Call::Target { id, value } => (0, id, value),
            Call::Immediate { id, value } => (1, id, value),
            Call::Step => (2, 0, 0.0),
            Call::Reset => (3, 0, 0.0),
            Call::Value { id } => (4, id, 0.0),
        };
        self.words[TOLD_VALUE] = BEFORE.to_bits();
        // SAFETY: the pointer is that of a live array, lent for the call alone.
        let number = unsafe { probe_bank_call(op, id, value, &mut self.words) };
        let told = self.words[TOLD_VALUE];
        let untold = told == BEFORE.to_bits();
        let word = if untold { 0 } else { one_nan(told) };
        (Answer { number, word }, self.words[TOLD_COUNT])
    }

    /// The words of a slot.
    pub fn slot_mut(&mut self, index: usize) -> &mut [u64] {
        &mut self.words[smoother::WORDS * index..][..smoother::WORDS]
    }

    fn smoothers(&self, count: usize) -> impl Iterator<Item = Smoother> + '_ {
        let slots = self.words[..COUNT].chunks_exact(smoother::WORDS);
        slots.take(count).map(Smoother::of)
    }

    /// What the first slots hold.
    pub fn slots(&self, count: usize) -> Vec<Slot> {
        self.smoothers(count).map(|s| s.slot()).collect()
    }

    /// The declarations that the first slots keep.
    pub fn declared(&self, count: usize) -> Vec<Declared> {
        self.smoothers(count).map(|s| s.declared()).collect()
    }

    /// Replace value, target, step size and updates left of a slot.
    pub fn forge(&mut self, index: usize, slot: &Slot) {
        let words = self.slot_mut(index);
        let mut forged = Smoother::of(words);
        forged.cur = slot.cur;
        forged.target = slot.target;
        forged.delta = slot.delta;
        forged.left = slot.left;
        words.copy_from_slice(&forged.words());
    }

    /// The whole bank as bits, without what a call tells.
    pub fn bits(&self) -> Vec<u64> {
        let mut bits = self.words[..TOLD_COUNT].to_vec();
        for slot in bits[..COUNT].chunks_exact_mut(smoother::WORDS) {
            for at in smoother::FLOATS {
                slot[at] = one_nan(slot[at]);
            }
        }
        bits
    }
}

/// A float's bits; all NaN are one.
fn one_nan(bits: u64) -> u64 {
    canonical(f64::from_bits(bits))
}
