//! The answer buffer over the slices of `sys`: its eight words as far as they fit.

use daggeryuzu::sys::{self, SetupStores, ANSWER, STATE};
use daggeryuzu::{LimiterSettings, ProcessSpec};

const SPEC: ProcessSpec = ProcessSpec {
    sample_rate: 48_000,
    channels: 2,
    max_block: 512,
    max_memory: Some(4_335),
};

/// A setup that is one byte short: 15 with the bytes needed and those allowed,
/// judged before any store.
fn refused(state: &mut [u8], answer: &mut [u64], spec: ProcessSpec) -> u32 {
    let stores = SetupStores {
        delay: &mut [],
        marks: &mut [],
        minima: &mut [],
        weights: &mut [],
        row: &mut [],
        detector: &mut [],
    };
    let settings = LimiterSettings::default();
    sys::setup(state, answer, settings, spec, false, stores)
}

#[test]
fn an_answer_is_told_as_far_as_it_fits() {
    let due = [4_256, 4_255, 0, 0, 0, 0, 0, 0, 7, 7];
    for length in 0..=ANSWER + 2 {
        let mut answer = vec![7; length];
        assert_eq!(refused(&mut [0; STATE], &mut answer, SPEC), 15);
        assert_eq!(answer, due[..length]);
    }
}

#[test]
fn no_call_is_refused_for_its_answer() {
    let mut state = [0; STATE];
    assert_eq!(sys::parameter(&state, &mut [], 0), 18);
    assert_eq!(sys::set_parameter(&mut state, &mut [7; 3], 0, 0), 18);
}

/// 16 of a setup whose state has another length, behind all up to 15; nothing
/// is written to it.
#[test]
fn a_state_of_another_length_stays() {
    let mut state = [7; STATE + 1];
    assert_eq!(refused(&mut state, &mut [], SPEC), 15);
    let uncapped = ProcessSpec {
        max_memory: None,
        ..SPEC
    };
    assert_eq!(refused(&mut state, &mut [], uncapped), 16);
    assert_eq!(state, [7; STATE + 1]);
    assert_eq!(sys::parameter(&state, &mut [], 0), 18);
}
