//! The proved limiter and the proved rearrangement, called through the C functions
//! of the library `host`.

use daggeryuzu::sys::{self, LentStores, SetupStores};
use daggeryuzu::{LimiterSettings, ProcessSpec};

use crate::audio::Format;
use crate::calls::{Call, Lent, Stores};
use crate::interleave::{self, Direction};
use crate::model::setup::Setup;

/// A rearrangement by the proved code: a side of the comparison.
pub fn rearrange(call: &interleave::Call, audio: &mut [u8]) -> u32 {
    let rearrange = match (call.direction, call.format) {
        (Direction::Deinterleave, Format::F64) => sys::deinterleave,
        (Direction::Deinterleave, Format::F32) => sys::deinterleave_float,
        (Direction::Interleave, Format::F64) => sys::interleave,
        (Direction::Interleave, Format::F32) => sys::interleave_float,
    };
    rearrange(call.channels, audio)
}

/// A call of the proved code: a side of the comparison.
pub fn call(lent: &mut Lent, call: &mut Call) -> u32 {
    let (state, answer) = (&mut lent.state, &mut lent.answer);
    let stores = &mut lent.stores;
    match call {
        Call::Setup { setup, cap, house } => {
            let (settings, spec) = (settings(setup), spec(setup, *cap));
            let (left_out, stores) = (setup.left_out, setup_stores(stores));
            sys::setup_leaving_out(state, answer, settings, left_out, spec, *house, stores)
        }
        Call::Process {
            position,
            frames,
            events,
            audio,
        } => {
            let process = match audio.format {
                Format::F64 => sys::process,
                Format::F32 => sys::process_float,
            };
            let (frames, audio) = (*frames as usize, &mut audio.bytes);
            let stores = lent_stores(stores);
            process(state, answer, *position, frames, events, audio, stores)
        }
        Call::Flush { frames, audio } => {
            let flush = match audio.format {
                Format::F64 => sys::flush,
                Format::F32 => sys::flush_float,
            };
            let (frames, audio) = (*frames as usize, &mut audio.bytes);
            flush(state, answer, frames, audio, lent_stores(stores))
        }
        Call::Set { id, bits } => sys::set_parameter(state, answer, *id, *bits),
        Call::Read { id } => sys::parameter(state, answer, *id),
        Call::Reset => sys::reset(state, answer, lent_stores(stores)),
        Call::GainStep { bits } => sys::gain_step(state, answer, *bits, lent_stores(stores)),
        Call::Look { lookahead, rate } => number(lent, sys::look(*lookahead, *rate)),
        Call::Bytes { channels, look } => {
            let bytes = sys::bytes_needed(*channels as usize, *look as usize);
            number(lent, bytes)
        }
        Call::House { rate, look } => {
            let has = sys::has_house_weights(*rate, *look as usize);
            number(lent, u64::from(has))
        }
    }
}

/// The answer of a function of numbers alone.
fn number(lent: &mut Lent, number: u64) -> u32 {
    lent.tell(&[number]);
    0
}

/// The settings but for the channels that count, which cross as any 32 bits.
fn settings(setup: &Setup) -> LimiterSettings {
    LimiterSettings {
        threshold_db: setup.threshold,
        true_peak_margin_db: setup.margin,
        lookahead_ms: setup.lookahead,
        release_ms: setup.release,
        ..LimiterSettings::default()
    }
}

fn spec(setup: &Setup, cap: Option<u64>) -> ProcessSpec {
    ProcessSpec {
        sample_rate: setup.rate,
        channels: setup.channels,
        max_block: setup.block,
        max_memory: cap,
    }
}

/// The stores are kept as words; those of floats cross as what the bits mean.
fn lent_stores(stores: &mut Stores) -> LentStores<'_> {
    let [delay, marks, minima, weights, row, detector] = stores.0.each_mut();
    LentStores {
        delay: floats(delay),
        marks,
        minima: floats(minima),
        weights: floats(weights),
        row: floats(row),
        detector: floats(detector),
    }
}

/// The same for a setup, which may fill the weights.
fn setup_stores(stores: &mut Stores) -> SetupStores<'_> {
    let [delay, marks, minima, weights, row, detector] = stores.0.each_mut();
    SetupStores {
        delay: floats(delay),
        marks,
        minima: floats(minima),
        weights: floats(weights),
        row: floats(row),
        detector: floats(detector),
    }
}

/// Words as the floats whose bits they are.
fn floats(words: &mut [u64]) -> &mut [f64] {
    // SAFETY: a float is as large and as aligned as a word, and any bits are one.
    unsafe { std::slice::from_raw_parts_mut(words.as_mut_ptr().cast(), words.len()) }
}
