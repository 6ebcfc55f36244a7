//! A look-ahead peak limiter whose every function is proved to meet its
//! contract, behind the method names of the Rust it is a translation of.
//!
//! Every call does its own checking and answers `Ok`, or the one [`Refusal`]
//! of document 01's table that arises first; a refused call changes nothing.
//!
//! ```
//! use daggeryuzu::{Limiter, LimiterSettings, ProcessSpec};
//!
//! let spec = ProcessSpec { sample_rate: 48_000, channels: 2, max_block: 512, max_memory: None };
//! let mut limiter = Limiter::prepare(LimiterSettings::default(), spec)?;
//! let mut audio = vec![0.0_f32; 2 * 512]; // f32 or f64; planar: channel after channel
//! let highest = limiter.process(0, &mut audio, &[])?; // where its highest peak sat
//! assert_eq!(highest, None); // silence has none
//! let mut tail = vec![0.0_f32; 2 * limiter.latency()];
//! let produced = limiter.flush(&mut tail)?;
//! assert!(produced.done);
//! # Ok::<(), daggeryuzu::Refusal>(())
//! ```
//!
//! Files hold frame after frame: [`Limiter::deinterleave`] before a block and
//! [`Limiter::interleave`] after it, and after a drain, rearrange the audio in place.
//!
//! Every channel counts in the peak that the gain is made from, unless the settings leave
//! it out ([`LimiterSettings::leave_out`]), as for a bass channel under which voices are
//! not to duck. It is then scaled like the others, and **not kept below the target**.
//!
//! The weights of the attack are the proved code's own, a house table, for 1.5 ms at
//! 44,100, 48,000, 96,000 and 192,000; others the wrapper computes ([`Limiter::prepare`]).

#![warn(missing_docs)]

mod interleaving;
mod peak_place;
mod refusal;
mod sample;
mod settings;
mod stores;
pub mod sys;

pub use interleaving::{deinterleave, interleave};
pub use peak_place::PeakPlace;
pub use refusal::Refusal;
pub use sample::Sample;
pub use settings::{LimiterSettings, ProcessSpec, MOST_CHANNELS};

use stores::Stores;
use sys::{ANSWER, STATE};

/// The threshold's parameter id.
pub const THRESHOLD_DB: u32 = 0;

/// A new target for a parameter, stamped with an offset into its block.
#[derive(Clone, Copy, Debug, PartialEq)]
pub struct ParamEvent {
    /// Frames from the block's start.
    pub offset: u32,
    /// Which parameter; an unknown one is ignored.
    pub param: u32,
    /// The target, kept within the parameter's range.
    pub value: f64,
}

/// What a drain came to.
#[derive(Clone, Copy, Debug, PartialEq, Eq)]
pub struct Produced {
    /// Frames written to each channel.
    pub frames: usize,
    /// Whether the tail is drained.
    pub done: bool,
}

/// The limiter with its state and stores.
#[derive(Clone, Debug)]
pub struct Limiter {
    state: [u8; STATE],
    stores: Stores,
    spec: ProcessSpec,
    counts: [bool; MOST_CHANNELS],
    events: Vec<u64>,
}

impl Limiter {
    /// Sets a limiter up. Where there is a house table of weights for its rate and look
    /// (1.5 ms at 44,100, 48,000, 96,000 or 192,000), it runs on that one, and nothing is
    /// computed; else the wrapper computes them, as the Rust does.
    ///
    /// # Errors
    /// Refusals 1 to 15 of document 01; 29, 16 and 17 never arise here, because a table is
    /// asked for only where there is one, and stores and weights are made to fit.
    pub fn prepare(settings: LimiterSettings, spec: ProcessSpec) -> Result<Self, Refusal> {
        let look = sys::look(settings.lookahead_ms, spec.sample_rate);
        let mut limiter = Self {
            state: [0; STATE],
            stores: Stores::new(spec.sample_rate, spec.channels, look),
            spec,
            counts: settings.counts,
            events: Vec::new(),
        };
        let house = limiter.stores.house();
        let (state, stores) = (&mut limiter.state, limiter.stores.lent_to_setup());
        told(|answer| sys::setup(state, answer, settings, spec, house, stores))?;
        Ok(limiter)
    }

    /// Limits a block in place: planar audio, `channels × frames` samples.
    /// Events are sorted by their offsets. A block of one sample type may
    /// follow one of the other.
    ///
    /// The answer says where the highest linked peak sat, in a channel that counts; none
    /// where the block is empty or has none above 0.0. The detector remembers eleven
    /// samples before it.
    /// [`process_audio`](Self::process_audio) does not ask for it.
    ///
    /// # Errors
    /// 20, 21 or 22; 18, 16 and 19 never arise here, because nobody else
    /// writes the state and the stores.
    pub fn process<T: Sample>(
        &mut self,
        position: u64,
        audio: &mut [T],
        events: &[ParamEvent],
    ) -> Result<Option<PeakPlace>, Refusal> {
        self.take(events);
        told(|answer| self.block(answer, position, audio)).map(PeakPlace::told)
    }

    /// [`process`](Self::process) for who does not ask where the highest peak sat: no sum
    /// is computed for its sake, which takes less time, most of all in quiet audio and
    /// short blocks. A block that is refused is judged twice.
    ///
    /// # Errors
    /// Those of [`process`](Self::process).
    pub fn process_audio<T: Sample>(
        &mut self,
        position: u64,
        audio: &mut [T],
        events: &[ParamEvent],
    ) -> Result<(), Refusal> {
        self.take(events);
        if self.block(&mut [], position, audio) == 0 {
            return Ok(());
        }
        // a refused call changes nothing: asked again, it tells its values too
        told(|answer| self.block(answer, position, audio)).map(|_| ())
    }

    /// Lays a block's events out in words.
    fn take(&mut self, events: &[ParamEvent]) {
        self.events.clear();
        for e in events {
            self.events
                .extend([u64::from(e.offset), u64::from(e.param), e.value.to_bits()]);
        }
    }

    /// A block with the events taken: its number, and its words, as many as fit.
    fn block<T: Sample>(&mut self, answer: &mut [u64], position: u64, audio: &mut [T]) -> u32 {
        let frames = audio.len() / self.spec.channels;
        let (state, events, stores) = (&mut self.state, &self.events, self.stores.lent());
        let audio = sys::bytes(audio);
        T::PROCESS(state, answer, position, frames, events, audio, stores)
    }

    /// Drains the tail: silence goes in, what was held back comes out. It says nothing
    /// of peaks.
    ///
    /// # Errors
    /// 20 or 22.
    pub fn flush<T: Sample>(&mut self, audio: &mut [T]) -> Result<Produced, Refusal> {
        let frames = audio.len() / self.spec.channels;
        let (state, audio, stores) = (&mut self.state, sys::bytes(audio), self.stores.lent());
        let words = told(|answer| T::FLUSH(state, answer, frames, audio, stores))?;
        Ok(Produced {
            frames: words[0] as usize,
            done: words[1] == 1,
        })
    }

    /// Rearranges interleaved audio of the limiter's channels into planar, in place:
    /// [`deinterleave`].
    ///
    /// # Errors
    /// 28.
    pub fn deinterleave<T: Sample>(&self, audio: &mut [T]) -> Result<(), Refusal> {
        deinterleave(self.spec.channels, audio)
    }

    /// Rearranges planar audio of the limiter's channels into interleaved, in place:
    /// [`interleave`].
    ///
    /// # Errors
    /// 28.
    pub fn interleave<T: Sample>(&self, audio: &mut [T]) -> Result<(), Refusal> {
        interleave(self.spec.channels, audio)
    }

    /// Sets a parameter at once, with no ramp.
    ///
    /// # Errors
    /// 23 for a value that is not finite, 24 for an unknown id.
    pub fn set_parameter_immediate(&mut self, id: u32, value: f64) -> Result<(), Refusal> {
        told(|answer| sys::set_parameter(&mut self.state, answer, id, value.to_bits()))?;
        Ok(())
    }

    /// The present value of a parameter.
    ///
    /// # Errors
    /// 24 for an unknown id.
    pub fn parameter(&self, id: u32) -> Result<f64, Refusal> {
        let words = told(|answer| sys::parameter(&self.state, answer, id))?;
        Ok(f64::from_bits(words[0]))
    }

    /// Restores the starting values; the settings stay, and so does which channels count.
    ///
    /// # Errors
    /// None arises here.
    pub fn reset(&mut self) -> Result<(), Refusal> {
        let (state, stores) = (&mut self.state, self.stores.lent());
        told(|answer| sys::reset(state, answer, stores))?;
        Ok(())
    }

    /// Frames by which the audio is held back: look.
    #[must_use]
    pub fn latency(&self) -> usize {
        self.stores.look()
    }

    /// Whether it runs on a house table of weights, or else on computed ones.
    #[must_use]
    pub fn has_house_weights(&self) -> bool {
        self.stores.house()
    }

    /// Whether each of its channels counts in the linked peak; one that does not is not kept
    /// below the target.
    #[must_use]
    pub fn counts(&self) -> &[bool] {
        &self.counts[..self.spec.channels]
    }

    /// Bytes of stores and bank, as document 01 counts them.
    #[must_use]
    pub fn memory_footprint(&self) -> u64 {
        sys::bytes_needed(self.spec.channels, self.stores.look())
    }
}

/// The values that a call tells where it finished, or its refusal.
fn told(call: impl FnOnce(&mut [u64]) -> u32) -> Result<[u64; ANSWER], Refusal> {
    let mut answer = [0; ANSWER];
    match call(&mut answer) {
        0 => Ok(answer),
        number => Err(Refusal::new(number, [answer[0], answer[1]])),
    }
}
