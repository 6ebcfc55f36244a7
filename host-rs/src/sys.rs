//! The C functions (include/daggeryuzu.h) over slices, for a host that lends its
//! own buffers; [`Limiter`](crate::Limiter) stands on them. Each answers document
//! 01's number, 0 where the work is finished, and tells its values in `answer`, where
//! it is lent one.
//!
//! All of this crate's unsafe code is here. Each slice is handed over by its own
//! pointer and length, and no two of them overlap, because each is borrowed.

use crate::sample::Sample;
use crate::settings::{LimiterSettings, ProcessSpec};

/// Bytes of a state.
pub const STATE: usize = 512;

/// Words of an answer: the values in order, a float as its bits, then 0. As many
/// are written as fit, and what a longer buffer has behind them stays; whoever
/// wants none lends an empty one.
pub const ANSWER: usize = 8;

/// The first word of a finished block's answer: no peak; 0 in all words.
pub const PEAK_NONE: u64 = 0;

/// The highest peak sat on a sample; its frame and channel follow.
pub const PEAK_ON_SAMPLE: u64 = 1;

/// The highest peak sat between samples; frame, channel and phase follow.
pub const PEAK_BETWEEN: u64 = 2;

extern "C" {
    fn daggeryuzu_look(lookahead_ms: u64, rate: u32) -> u64;
    fn daggeryuzu_bytes_needed(channels: usize, look: usize) -> u64;
    fn daggeryuzu_has_house_weights(rate: u32, look: usize) -> u32;
    fn daggeryuzu_setup(
        state: *mut u8,
        state_len: usize,
        answer: *mut u64,
        answer_len: usize,
        threshold_db: u64,
        true_peak_margin_db: u64,
        lookahead_ms: u64,
        release_ms: u64,
        left_out: u32,
        rate: u32,
        channels: usize,
        max_block: usize,
        capped: u32,
        cap: u64,
        house: u32,
        delay: *mut f64,
        delay_len: usize,
        marks: *mut u64,
        marks_len: usize,
        minima: *mut f64,
        minima_len: usize,
        weights: *mut f64,
        weights_len: usize,
        row: *mut f64,
        row_len: usize,
        detector: *mut f64,
        detector_len: usize,
    ) -> u32;
    fn daggeryuzu_process(
        state: *mut u8,
        state_len: usize,
        answer: *mut u64,
        answer_len: usize,
        position: u64,
        frames: usize,
        events: *const u64,
        events_len: usize,
        audio: *mut u8,
        audio_len: usize,
        delay: *mut f64,
        delay_len: usize,
        marks: *mut u64,
        marks_len: usize,
        minima: *mut f64,
        minima_len: usize,
        weights: *const f64,
        weights_len: usize,
        row: *mut f64,
        row_len: usize,
        detector: *mut f64,
        detector_len: usize,
    ) -> u32;
    fn daggeryuzu_process_float(
        state: *mut u8,
        state_len: usize,
        answer: *mut u64,
        answer_len: usize,
        position: u64,
        frames: usize,
        events: *const u64,
        events_len: usize,
        audio: *mut u8,
        audio_len: usize,
        delay: *mut f64,
        delay_len: usize,
        marks: *mut u64,
        marks_len: usize,
        minima: *mut f64,
        minima_len: usize,
        weights: *const f64,
        weights_len: usize,
        row: *mut f64,
        row_len: usize,
        detector: *mut f64,
        detector_len: usize,
    ) -> u32;
    fn daggeryuzu_flush(
        state: *mut u8,
        state_len: usize,
        answer: *mut u64,
        answer_len: usize,
        frames: usize,
        audio: *mut u8,
        audio_len: usize,
        delay: *mut f64,
        delay_len: usize,
        marks: *mut u64,
        marks_len: usize,
        minima: *mut f64,
        minima_len: usize,
        weights: *const f64,
        weights_len: usize,
        row: *mut f64,
        row_len: usize,
        detector: *mut f64,
        detector_len: usize,
    ) -> u32;
    fn daggeryuzu_flush_float(
        state: *mut u8,
        state_len: usize,
        answer: *mut u64,
        answer_len: usize,
        frames: usize,
        audio: *mut u8,
        audio_len: usize,
        delay: *mut f64,
        delay_len: usize,
        marks: *mut u64,
        marks_len: usize,
        minima: *mut f64,
        minima_len: usize,
        weights: *const f64,
        weights_len: usize,
        row: *mut f64,
        row_len: usize,
        detector: *mut f64,
        detector_len: usize,
    ) -> u32;
    fn daggeryuzu_set_parameter(
        state: *mut u8,
        state_len: usize,
        answer: *mut u64,
        answer_len: usize,
        id: u32,
        value: u64,
    ) -> u32;
    fn daggeryuzu_parameter(
        state: *const u8,
        state_len: usize,
        answer: *mut u64,
        answer_len: usize,
        id: u32,
    ) -> u32;
    fn daggeryuzu_reset(
        state: *mut u8,
        state_len: usize,
        answer: *mut u64,
        answer_len: usize,
        delay: *mut f64,
        delay_len: usize,
        marks: *const u64,
        marks_len: usize,
        minima: *const f64,
        minima_len: usize,
        weights: *const f64,
        weights_len: usize,
        row: *mut f64,
        row_len: usize,
        detector: *mut f64,
        detector_len: usize,
    ) -> u32;
    fn daggeryuzu_gain_step(
        state: *mut u8,
        state_len: usize,
        answer: *mut u64,
        answer_len: usize,
        gain: u64,
        marks: *mut u64,
        marks_len: usize,
        minima: *mut f64,
        minima_len: usize,
        weights: *const f64,
        weights_len: usize,
        row: *mut f64,
        row_len: usize,
    ) -> u32;
    fn daggeryuzu_deinterleave(channels: usize, audio: *mut u8, audio_len: usize) -> u32;
    fn daggeryuzu_deinterleave_float(channels: usize, audio: *mut u8, audio_len: usize) -> u32;
    fn daggeryuzu_interleave(channels: usize, audio: *mut u8, audio_len: usize) -> u32;
    fn daggeryuzu_interleave_float(channels: usize, audio: *mut u8, audio_len: usize) -> u32;
}

/// Document 01's six stores, lent to one call, which gets them as the last one
/// left them.
#[derive(Debug)]
pub struct LentStores<'a> {
    /// `channels × look`.
    pub delay: &'a mut [f64],
    /// `look + 1`.
    pub marks: &'a mut [u64],
    /// `look + 1`.
    pub minima: &'a mut [f64],
    /// L: `look - 11`, at least 1.
    pub weights: &'a [f64],
    /// L.
    pub row: &'a mut [f64],
    /// `channels × 12`.
    pub detector: &'a mut [f64],
}

/// The stores of a setup: those of [`LentStores`], with weights that may be written.
#[derive(Debug)]
pub struct SetupStores<'a> {
    /// `channels × look`.
    pub delay: &'a mut [f64],
    /// `look + 1`.
    pub marks: &'a mut [u64],
    /// `look + 1`.
    pub minima: &'a mut [f64],
    /// L: `look - 11`, at least 1. Filled where a house table is asked for, else only read.
    pub weights: &'a mut [f64],
    /// L.
    pub row: &'a mut [f64],
    /// `channels × 12`.
    pub detector: &'a mut [f64],
}

/// The frames by which the audio is held back.
#[must_use]
pub fn look(lookahead_ms: f64, rate: u32) -> u64 {
    // SAFETY: only numbers cross.
    unsafe { daggeryuzu_look(lookahead_ms.to_bits(), rate) }
}

/// The bytes that a cap must allow.
#[must_use]
pub fn bytes_needed(channels: usize, look: usize) -> u64 {
    // SAFETY: only numbers cross.
    unsafe { daggeryuzu_bytes_needed(channels, look) }
}

/// Whether there is a house table of this rate and look: 44,100 and 66, 48,000 and 72,
/// 96,000 and 144, 192,000 and 288, which is 1.5 ms at each.
#[must_use]
pub fn has_house_weights(rate: u32, look: usize) -> bool {
    // SAFETY: only numbers cross.
    unsafe { daggeryuzu_has_house_weights(rate, look) != 0 }
}

/// Sets a limiter up: 1 to 15, 29, 16, 17. Asked for the house table of its rate and
/// look, it fills the weights from it and does not read what they held: 29 where there
/// is none, and no 17. Else it reads them. A refused setup leaves them as they were.
pub fn setup(
    state: &mut [u8],
    answer: &mut [u64],
    settings: LimiterSettings,
    spec: ProcessSpec,
    house: bool,
    stores: SetupStores<'_>,
) -> u32 {
    let left_out = settings.left_out();
    setup_leaving_out(state, answer, settings, left_out, spec, house, stores)
}

/// [`setup`] for a comparison with the C function, which takes the channels that do not
/// count as bits: bit `c` for channel `c`, and 0 where all count. Bits at and past the
/// number of channels mean nothing.
///
/// **The settings' own [`counts`](LimiterSettings#structfield.counts) are not read**: who
/// is left out stands in `left_out` alone. A host calls [`setup`].
pub fn setup_leaving_out(
    state: &mut [u8],
    answer: &mut [u64],
    settings: LimiterSettings,
    left_out: u32,
    spec: ProcessSpec,
    house: bool,
    stores: SetupStores<'_>,
) -> u32 {
    let LimiterSettings {
        threshold_db,
        true_peak_margin_db,
        lookahead_ms,
        release_ms,
        counts: _, // see above
    } = settings;
    let floats = [threshold_db, true_peak_margin_db, lookahead_ms, release_ms];
    let numbers = SetupNumbers {
        floats: floats.map(f64::to_bits),
        left_out,
        spec,
        house,
    };
    call_setup(state, answer, numbers, stores)
}

/// What the C function of a setup is told beside its slices.
struct SetupNumbers {
    /// Bits of threshold, margin, lookahead and release.
    floats: [u64; 4],
    left_out: u32,
    spec: ProcessSpec,
    house: bool,
}

fn call_setup(
    state: &mut [u8],
    answer: &mut [u64],
    numbers: SetupNumbers,
    stores: SetupStores<'_>,
) -> u32 {
    let ([threshold, margin, lookahead, release], spec) = (numbers.floats, numbers.spec);
    // SAFETY: pointers and lengths are those of slices that are borrowed apart.
    unsafe {
        daggeryuzu_setup(
            state.as_mut_ptr(),
            state.len(),
            answer.as_mut_ptr(),
            answer.len(),
            threshold,
            margin,
            lookahead,
            release,
            numbers.left_out,
            spec.sample_rate,
            spec.channels,
            spec.max_block,
            u32::from(spec.max_memory.is_some()),
            spec.max_memory.unwrap_or_default(),
            u32::from(numbers.house),
            stores.delay.as_mut_ptr(),
            stores.delay.len(),
            stores.marks.as_mut_ptr(),
            stores.marks.len(),
            stores.minima.as_mut_ptr(),
            stores.minima.len(),
            stores.weights.as_mut_ptr(),
            stores.weights.len(),
            stores.row.as_mut_ptr(),
            stores.row.len(),
            stores.detector.as_mut_ptr(),
            stores.detector.len(),
        )
    }
}

/// Blocks and drains of one sample type. The types differ in the C functions alone,
/// and so in the bytes that a sample is.
macro_rules! blocks_and_drains {
    (
        $(#[$process_says:meta])* $process:ident: $c_process:ident,
        $(#[$flush_says:meta])* $flush:ident: $c_flush:ident,
    ) => {
        $(#[$process_says])*
        pub fn $process(
            state: &mut [u8],
            answer: &mut [u64],
            position: u64,
            frames: usize,
            events: &[u64],
            audio: &mut [u8],
            stores: LentStores<'_>,
        ) -> u32 {
            // SAFETY: pointers and lengths are those of slices that are borrowed apart.
            unsafe {
                $c_process(
                    state.as_mut_ptr(),
                    state.len(),
                    answer.as_mut_ptr(),
                    answer.len(),
                    position,
                    frames,
                    events.as_ptr(),
                    events.len(),
                    audio.as_mut_ptr(),
                    audio.len(),
                    stores.delay.as_mut_ptr(),
                    stores.delay.len(),
                    stores.marks.as_mut_ptr(),
                    stores.marks.len(),
                    stores.minima.as_mut_ptr(),
                    stores.minima.len(),
                    stores.weights.as_ptr(),
                    stores.weights.len(),
                    stores.row.as_mut_ptr(),
                    stores.row.len(),
                    stores.detector.as_mut_ptr(),
                    stores.detector.len(),
                )
            }
        }

        $(#[$flush_says])*
        pub fn $flush(
            state: &mut [u8],
            answer: &mut [u64],
            frames: usize,
            audio: &mut [u8],
            stores: LentStores<'_>,
        ) -> u32 {
            // SAFETY: pointers and lengths are those of slices that are borrowed apart.
            unsafe {
                $c_flush(
                    state.as_mut_ptr(),
                    state.len(),
                    answer.as_mut_ptr(),
                    answer.len(),
                    frames,
                    audio.as_mut_ptr(),
                    audio.len(),
                    stores.delay.as_mut_ptr(),
                    stores.delay.len(),
                    stores.marks.as_mut_ptr(),
                    stores.marks.len(),
                    stores.minima.as_mut_ptr(),
                    stores.minima.len(),
                    stores.weights.as_ptr(),
                    stores.weights.len(),
                    stores.row.as_mut_ptr(),
                    stores.row.len(),
                    stores.detector.as_mut_ptr(),
                    stores.detector.len(),
                )
            }
        }
    };
}

blocks_and_drains! {
    /// Limits a block in place: 18, 16, 19, 20, 21 (its index), 22. It tells where the
    /// highest peak sat: see [`PeakPlace`](crate::PeakPlace); with an empty answer no
    /// sum is computed for its sake. Events are three words
    /// each: offset, id, bits of the value. A sample is 8 bytes, low byte first.
    process: daggeryuzu_process,
    /// Drains the tail: 18, 16, 19, 20, 22. It tells the frames written and whether
    /// the tail is done. A sample is 8 bytes, low byte first.
    flush: daggeryuzu_flush,
}

blocks_and_drains! {
    /// [`process`] of f32 samples: 4 bytes each, low byte first.
    process_float: daggeryuzu_process_float,
    /// [`flush`] of f32 samples: 4 bytes each, low byte first.
    flush_float: daggeryuzu_flush_float,
}

/// Sets a parameter, its value as bits, at once: 18, 23 (id and bits), 24.
pub fn set_parameter(state: &mut [u8], answer: &mut [u64], id: u32, value: u64) -> u32 {
    // SAFETY: pointers and lengths are those of slices that are borrowed apart.
    unsafe {
        daggeryuzu_set_parameter(
            state.as_mut_ptr(),
            state.len(),
            answer.as_mut_ptr(),
            answer.len(),
            id,
            value,
        )
    }
}

/// Tells the bits of a parameter's present value: 18, 24.
pub fn parameter(state: &[u8], answer: &mut [u64], id: u32) -> u32 {
    // SAFETY: pointers and lengths are those of slices that are borrowed apart.
    unsafe {
        daggeryuzu_parameter(
            state.as_ptr(),
            state.len(),
            answer.as_mut_ptr(),
            answer.len(),
            id,
        )
    }
}

/// Restores the starting values: 18, 16.
pub fn reset(state: &mut [u8], answer: &mut [u64], stores: LentStores<'_>) -> u32 {
    // SAFETY: pointers and lengths are those of slices that are borrowed apart.
    unsafe {
        daggeryuzu_reset(
            state.as_mut_ptr(),
            state.len(),
            answer.as_mut_ptr(),
            answer.len(),
            stores.delay.as_mut_ptr(),
            stores.delay.len(),
            stores.marks.as_ptr(),
            stores.marks.len(),
            stores.minima.as_ptr(),
            stores.minima.len(),
            stores.weights.as_ptr(),
            stores.weights.len(),
            stores.row.as_mut_ptr(),
            stores.row.len(),
            stores.detector.as_mut_ptr(),
            stores.detector.len(),
        )
    }
}

/// One gain step alone, of a gain's bits: 18, 16, 19, 22. It tells floor, entries
/// dropped and kept, tally, mean and gain; delay and detector stay as they are.
pub fn gain_step(state: &mut [u8], answer: &mut [u64], gain: u64, stores: LentStores<'_>) -> u32 {
    // SAFETY: pointers and lengths are those of slices that are borrowed apart.
    unsafe {
        daggeryuzu_gain_step(
            state.as_mut_ptr(),
            state.len(),
            answer.as_mut_ptr(),
            answer.len(),
            gain,
            stores.marks.as_mut_ptr(),
            stores.marks.len(),
            stores.minima.as_mut_ptr(),
            stores.minima.len(),
            stores.weights.as_ptr(),
            stores.weights.len(),
            stores.row.as_mut_ptr(),
            stores.row.len(),
        )
    }
}

/// Rearrangements of a slice of samples within itself, which need no limiter. They
/// differ in the C functions alone.
macro_rules! rearrangements {
    ($($(#[$says:meta])* $name:ident: $c_name:ident,)*) => {$(
        $(#[$says])*
        pub fn $name(channels: usize, audio: &mut [u8]) -> u32 {
            // SAFETY: pointer and length are those of a borrowed slice.
            unsafe { $c_name(channels, audio.as_mut_ptr(), audio.len()) }
        }
    )*};
}

rearrangements! {
    /// Interleaved audio to planar, in place: 27, 28. A sample is 8 bytes, which stay
    /// as they are.
    deinterleave: daggeryuzu_deinterleave,
    /// [`deinterleave`] of f32 samples: 4 bytes each.
    deinterleave_float: daggeryuzu_deinterleave_float,
    /// Planar audio to interleaved, in place: 27, 28. A sample is 8 bytes, which stay
    /// as they are.
    interleave: daggeryuzu_interleave,
    /// [`interleave`] of f32 samples: 4 bytes each.
    interleave_float: daggeryuzu_interleave_float,
}

/// Samples as the bytes that they are, low byte first.
pub(crate) fn bytes<T: Sample>(samples: &mut [T]) -> &mut [u8] {
    let length = size_of_val(samples);
    // SAFETY: the bytes are those of the samples, f32 or f64, and every byte is
    // good for both.
    unsafe { std::slice::from_raw_parts_mut(samples.as_mut_ptr().cast(), length) }
}
