//! The channels that do not count in the linked peak (document 02, Change 7), beside
//! a Rust that knows no such thing. The Rust is fed silence for them, so that it does
//! not hear them. What they give out follows here, from the samples that went in and
//! the gains that the Rust applied.

use std::ops::Range;

use super::Rust;
use crate::audio::Audio;
use crate::calls::{floats, Stores};
use crate::dsp::driver::MAX_RUN_FRAMES;
use crate::dsp::sanitize::{finite_or_zero, flush_denormal};
use crate::mastering::limiter::inside as kernel;
use crate::model::detector::TAPS;
use crate::model::setup::{counts, kept};
use crate::param::ParamEvent;

/// What the channels that do not count hold.
pub struct Aside {
    /// The bits that a state keeps, those past the number of channels too.
    pub left_out: u32,
    /// Channel by channel; nothing where the Rust itself plays one.
    lines: Vec<Option<Line>>,
}

/// A channel's delay line, and the twelve samples that its detector remembers,
/// newest first.
struct Line {
    delay: Vec<f64>,
    heard: Vec<f64>,
}

/// Frames that the Rust played, with silence for the channels left out.
struct Played {
    frames: Range<usize>,
    audio: Audio,
    gains: Vec<f64>,
    /// Where the delay lines stood before them.
    at: usize,
}

impl Aside {
    /// What a setup leaves.
    pub fn new(left_out: u32, channels: usize, look: usize) -> Self {
        let line = |channel: usize| {
            (!counts(left_out, channel)).then(|| Line {
                delay: vec![0.0; look],
                heard: vec![0.0; TAPS],
            })
        };
        Self {
            left_out: kept(left_out),
            lines: (0..channels).map(line).collect(),
        }
    }

    /// Whether the Rust plays every channel.
    pub fn is_empty(&self) -> bool {
        self.lines.iter().all(Option::is_none)
    }

    /// Start anew.
    pub fn reset(&mut self) {
        for line in self.lines.iter_mut().flatten() {
            line.delay.fill(0.0);
            line.heard.fill(0.0);
        }
    }

    /// Put what the lines hold into the stores.
    pub fn show(&self, stores: &mut Stores) {
        let places = places(stores, self.lines.len());
        for (line, (delay, heard)) in self.lines.iter().zip(places) {
            if let Some(line) = line {
                copy_bits(&line.delay, delay);
                copy_bits(&line.heard, heard);
            }
        }
    }

    /// Take what the stores hold for the lines, and leave silence to the Rust.
    pub fn take(&mut self, stores: &mut Stores) {
        let places = places(stores, self.lines.len());
        for (line, (delay, heard)) in self.lines.iter_mut().zip(places) {
            if let Some(line) = line {
                line.delay = floats(delay);
                line.heard = floats(heard);
                delay.fill(0);
                heard.fill(0);
            }
        }
    }

    /// Some frames of a call's audio, the channels left out silent.
    fn silenced(&self, audio: &Audio, frames: Range<usize>) -> Audio {
        let mut part = audio.part(self.lines.len(), frames);
        let plane = part.bytes.len() / self.lines.len();
        for (channel, line) in self.lines.iter().enumerate() {
            if line.is_some() {
                part.bytes[channel * plane..][..plane].fill(0);
            }
        }
        part
    }

    /// Put frames that were played into their places: as the Rust gave them, or by
    /// the lines. What goes into a line is the sample that stood there, or silence.
    fn put(&mut self, audio: &mut Audio, played: &Played, drained: bool) {
        let channels = self.lines.len();
        let (width, length) = (audio.len() / channels, played.frames.len());
        for (channel, line) in self.lines.iter_mut().enumerate() {
            for (i, &gain) in played.gains.iter().enumerate() {
                let place = channel * width + played.frames.start + i;
                match line {
                    None => audio.copy(place, &played.audio, channel * length + i),
                    Some(line) => {
                        let sample = if drained { 0.0 } else { audio.sample(place) };
                        audio.put(place, line.frame(played.at + i, sample, gain));
                    }
                }
            }
        }
    }
}

impl Line {
    /// One frame: what leaves the line, times the gain, by the output rule; the
    /// sample takes its place.
    fn frame(&mut self, at: usize, sample: f64, gain: f64) -> f64 {
        let (at, sample) = (at % self.delay.len(), finite_or_zero(sample));
        self.heard.rotate_right(1);
        self.heard[0] = sample;
        let leaves = finite_or_zero(self.delay[at]);
        self.delay[at] = sample;
        flush_denormal(leaves * gain)
    }
}

impl Rust {
    /// A block, in the runs that the Rust's driver cuts it into: after each the
    /// gains of its frames still stand in the Rust's field.
    pub(super) fn render_runs(&mut self, position: u64, events: &[ParamEvent], audio: &mut Audio) {
        let frames = audio.len() / self.spec.channels;
        let mut start = 0;
        while start < frames {
            let first = position + start as u64;
            let to_grid = MAX_RUN_FRAMES - (first % MAX_RUN_FRAMES as u64) as usize;
            let run = start..frames.min(start + to_grid);
            start = run.end;
            let mut part = self.aside.silenced(audio, run.clone());
            let at = self.delay_pos();
            self.render(first, &within(events, &run), &mut part);
            let played = Played {
                gains: kernel::gains(self.kernel(), run.len()).to_vec(),
                frames: run,
                audio: part,
                at,
            };
            self.aside.put(audio, &played, false);
        }
    }

    /// A drain, frame by frame: after each its gain is the one that the Rust keeps.
    pub(super) fn drain_frames(&mut self, audio: &mut Audio) -> Vec<u64> {
        let frames = audio.len() / self.spec.channels;
        let mut written = 0;
        loop {
            // A drain of no frames tells whether it is done.
            let frame = written..frames.min(written + 1);
            let mut part = self.aside.silenced(audio, frame.clone());
            let at = self.delay_pos();
            let told = self.drain(&mut part);
            if told[0] == 0 {
                return vec![written as u64, told[1]];
            }
            let played = Played {
                gains: vec![kernel::state(self.kernel()).gain],
                frames: frame,
                audio: part,
                at,
            };
            self.aside.put(audio, &played, true);
            written += 1;
        }
    }

    /// The place of the delay lines that is next.
    fn delay_pos(&self) -> usize {
        kernel::state(self.kernel()).delay_pos as usize
    }
}

/// The events of a run, stamped from its first frame on.
fn within(events: &[ParamEvent], run: &Range<usize>) -> Vec<ParamEvent> {
    let inside = |event: &&ParamEvent| run.contains(&(event.offset as usize));
    let stamped = |event: &ParamEvent| ParamEvent {
        offset: event.offset - run.start as u32,
        ..*event
    };
    events.iter().filter(inside).map(stamped).collect()
}

/// Each channel's places in the two stores that have such.
fn places(stores: &mut Stores, channels: usize) -> impl Iterator<Item = (&mut [u64], &mut [u64])> {
    let [delay, .., detector] = &mut stores.0;
    let look = delay.len() / channels;
    delay.chunks_mut(look).zip(detector.chunks_mut(TAPS))
}

fn copy_bits(from: &[f64], to: &mut [u64]) {
    for (word, x) in to.iter_mut().zip(from) {
        *word = x.to_bits();
    }
}

#[cfg(test)]
mod tests {
    use super::*;
    use crate::audio::Types;
    use crate::calls::{lent_differs, Call};
    use crate::model::calls::accepts;
    use crate::model::setup::Setup;
    use crate::whole::{drawn, Mode, Settings};

    /// Two frames of delay, by hand. An infinity goes in as silence, and what is
    /// below 1e-30 leaves as +0.0.
    #[test]
    fn a_line_is_delayed_and_scaled() {
        let mut line = Line {
            delay: vec![0.0; 2],
            heard: vec![0.0; TAPS],
        };
        for (at, sample, gain, due) in [
            (0, 3.0, 0.5, 0.0f64),
            (1, -4.0, 0.5, 0.0),
            (2, f64::INFINITY, 0.5, 1.5),
            (3, -1.5e-30, 0.25, -1.0),
            (4, f64::NAN, 1.0, 0.0),
            (5, 7.0, 0.5, 0.0),
            (6, 8.0, 1.0, 0.0),
            (7, 9.0, 1.0, 7.0),
        ] {
            assert_eq!(line.frame(at, sample, gain).to_bits(), due.to_bits());
        }
        let newest = [9.0, 8.0, 7.0, 0.0, -1.5e-30, 0.0, -4.0, 3.0];
        assert_eq!(line.heard[..8], newest);
        assert_eq!(line.delay, [8.0, 9.0]);
    }

    /// A call with blocks in their runs and drains in their frames.
    fn cut(rust: &mut Rust, call: &mut Call) -> (u32, Vec<u64>) {
        match call {
            Call::Process {
                position,
                events,
                audio,
                ..
            } => {
                rust.turn_to(audio.format);
                let events: Vec<ParamEvent> =
                    events.chunks_exact(3).map(super::super::event).collect();
                rust.render_runs(*position, &events, audio);
                (0, Vec::new())
            }
            Call::Flush { audio, .. } => {
                rust.turn_to(audio.format);
                (0, rust.drain_frames(audio))
            }
            _ => rust.call(call),
        }
    }

    /// Where all count the Rust itself says that cutting a call changes nothing.
    #[test]
    fn runs_and_frames_are_the_call() {
        let settings = Settings {
            mode: Mode::Whole,
            types: Types::Any,
            sessions: 60,
            seed: 4,
        };
        let mut calls = [0; 2];
        for number in 0..settings.sessions {
            let session = drawn(&settings, number);
            let setup = Setup {
                left_out: 0,
                ..session.setup
            };
            let new = || Rust::new(&setup, None, session.types.first()).expect("good");
            let (mut whole, mut pieces) = (new(), new());
            for turn in session.turns.iter().filter(|turn| turn.commits()) {
                let call = turn.part.call(&session);
                if matches!(call, Call::Setup { .. }) || !accepts(&whole.lent(), &call) {
                    continue;
                }
                let (mut due, mut seen) = (call.clone(), call);
                assert_eq!(whole.call(&mut due), cut(&mut pieces, &mut seen));
                assert_eq!(due.audio(), seen.audio());
                assert_eq!(lent_differs(&whole.lent(), &pieces.lent(), true), None);
                calls[usize::from(matches!(due, Call::Flush { .. }))] += 1;
            }
        }
        assert!(calls.iter().all(|&n| n > 100), "{calls:?}");
    }
}
