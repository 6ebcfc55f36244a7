//! A child of the Rust's own module `driver`: it reads and sets what a smoother
//! holds, and reaches the parts of a processor.

use std::marker::PhantomData;

use super::{KernelProcessor, SmootherBank};
use crate::bank::Slot;
use crate::sample::Sample;

/// The kernel of a processor.
pub(crate) fn kernel<K, T: Sample>(processor: &KernelProcessor<K, T>) -> &K {
    &processor.kernel
}

/// The same, to drive it alone.
pub(crate) fn kernel_mut<K, T: Sample>(processor: &mut KernelProcessor<K, T>) -> &mut K {
    &mut processor.kernel
}

/// The bank of a processor.
pub(crate) fn bank<K, T: Sample>(processor: &KernelProcessor<K, T>) -> &SmootherBank {
    &processor.bank
}

/// The same, to forge it.
pub(crate) fn bank_mut<K, T: Sample>(processor: &mut KernelProcessor<K, T>) -> &mut SmootherBank {
    &mut processor.bank
}

/// All that a processor holds, in one of another sample type: none of it knows
/// the type.
pub(crate) fn retyped<K, T: Sample, U: Sample>(
    processor: KernelProcessor<K, T>,
) -> KernelProcessor<K, U> {
    KernelProcessor {
        kernel: processor.kernel,
        bank: processor.bank,
        prepared: processor.prepared,
        _sample: PhantomData,
    }
}

/// The largest block that a processor was prepared for.
pub(crate) fn largest_block<K, T: Sample>(processor: &KernelProcessor<K, T>) -> Option<usize> {
    processor.prepared.map(|contract| contract.max_block)
}

/// What each smoother holds.
pub(crate) fn slots(bank: &SmootherBank) -> Vec<Slot> {
    let smoothers = bank.smoothers.iter();
    smoothers
        .map(|s| Slot {
            cur: s.cur,
            target: s.target,
            low: s.range.0,
            high: s.range.1,
            default: s.default,
            steps: s.steps,
            delta: s.step_delta,
            coeff: s.coeff,
            left: s.updates_remaining,
        })
        .collect()
}

/// Replace value, target, step size and updates left, as a host may do that
/// owns the bank.
pub(crate) fn forge(bank: &mut SmootherBank, index: usize, slot: &Slot) {
    let s = &mut bank.smoothers[index];
    s.cur = slot.cur;
    s.target = slot.target;
    s.step_delta = slot.delta;
    s.updates_remaining = slot.left;
}
