//! What a block's samples are bent to, so that its highest linked peak has its
//! like in another frame, another channel or a sample; or so that it is lower than
//! what is left out of it.

use crate::audio::Audio;
use crate::model::detector::{phase, sums, taps, TAPS};
use crate::model::setup::counts;
use crate::numbers::uniform;
use crate::rng::Rng;
use crate::signals::height;

/// One change of a block's samples. Each makes the first frames whatever the
/// block's length, so that the block can be cut.
#[derive(Clone, Copy, Debug, PartialEq, Eq)]
pub enum Aim {
    /// Pulses among silence, and samples as high as the detector's answers to
    /// them.
    Level { seed: u64 },
    /// The same frames again and again, every second time negated or not.
    Again { period: usize, negated: bool },
    /// Channels with the samples of another, negated or not.
    Twins { seed: u64 },
    /// Channels that count, divided by two so many times.
    Hush { left_out: u32, times: u32 },
}

/// Frames from a pulse to the detector's answer.
const HEARD: usize = 6;

/// Frames from one pulse to the next, at least.
const APART: u64 = 20;

impl Aim {
    /// Bend planar audio.
    pub fn bend(&self, audio: &mut Audio, channels: usize) {
        let mut planes = Planes {
            frames: audio.len() / channels,
            channels,
            audio,
        };
        match *self {
            Self::Level { seed } => planes.level(&mut Rng::new(seed)),
            Self::Again { period, negated } => planes.again(period, negated),
            Self::Twins { seed } => planes.twins(&mut Rng::new(seed)),
            Self::Hush { left_out, times } => planes.hush(left_out, 0.5f64.powi(times as i32)),
        }
    }
}

/// Audio with its channels.
struct Planes<'a> {
    audio: &'a mut Audio,
    channels: usize,
    frames: usize,
}

impl Planes<'_> {
    fn level(&mut self, rng: &mut Rng) {
        self.audio.bytes.fill(0);
        // A power of two, by which nothing is rounded.
        let scale = 1.0 / (1 << rng.below(12)) as f64;
        let mut start = rng.below(APART) as usize;
        while start < self.frames {
            self.pulse(start, scale, rng);
            start += (APART + rng.below(APART)) as usize;
        }
    }

    /// A pulse in one channel, and a sample as high as its answer in any channel:
    /// in the frame of that answer, the one before or the one after.
    fn pulse(&mut self, start: usize, scale: f64, rng: &mut Rng) {
        let [channel, other] = [(); 2].map(|()| rng.below(self.channels as u64) as usize);
        let after = rng.pick(&[HEARD - 1, HEARD, HEARD, HEARD + 1]);
        let own = HEARD.checked_sub(after).filter(|_| channel == other);
        let Pulse { samples, level } = pulse(own, rng);
        for (i, x) in samples.into_iter().enumerate() {
            self.put(channel, start + i, scale * x);
        }
        self.put(other, start + after, scale * level);
    }

    /// A sample, where the audio is long enough.
    fn put(&mut self, channel: usize, frame: usize, x: f64) {
        if frame < self.frames {
            self.audio.put(channel * self.frames + frame, x);
        }
    }

    fn again(&mut self, period: usize, negated: bool) {
        for channel in 0..self.channels {
            let first = channel * self.frames;
            for frame in period..self.frames {
                let negated = negated && frame / period % 2 == 1;
                self.copy(first + frame % period, first + frame, negated);
            }
        }
    }

    fn twins(&mut self, rng: &mut Rng) {
        let from = rng.below(self.channels as u64) as usize;
        for channel in (0..self.channels).filter(|&channel| channel != from) {
            let (kept, negated) = (rng.below(4) == 0, rng.below(2) == 0);
            for frame in (0..self.frames).filter(|_| !kept) {
                let [from, to] = [from, channel].map(|c| c * self.frames + frame);
                self.copy(from, to, negated);
            }
        }
    }

    /// Each sample of the channels that count, times a scale; those that are no
    /// number stay.
    fn hush(&mut self, left_out: u32, scale: f64) {
        for channel in (0..self.channels).filter(|&channel| counts(left_out, channel)) {
            for at in channel * self.frames..(channel + 1) * self.frames {
                let x = self.audio.sample(at);
                if x.is_finite() {
                    self.audio.put(at, x * scale);
                }
            }
        }
    }

    /// The sample of a place in another, negated or not.
    fn copy(&mut self, from: usize, to: usize, negated: bool) {
        let size = self.audio.format.size();
        let bytes = &mut self.audio.bytes;
        bytes.copy_within(size * from..size * (from + 1), size * to);
        // The sign is the highest bit of the last byte.
        bytes[size * to + size - 1] ^= u8::from(negated) << 7;
    }
}

/// A channel's samples from some frame on, and what the magnitude of its
/// detector's answer `HEARD` frames later is. All are f32.
struct Pulse {
    samples: [f64; 4],
    level: f64,
}

/// A pulse whose answer is an f32: two samples make a sum, and two more, which
/// are far smaller, move that to an f32 close by. The level itself may be among
/// the twelve samples by then, so far behind the newest.
fn pulse(own: Option<usize>, rng: &mut Rng) -> Pulse {
    let single = |x: f64| f64::from(x as f32);
    let mut store = [0.0; TAPS];
    store[HEARD] = single(height(rng));
    store[HEARD - 1] = single(store[HEARD] * uniform(rng, 0.5, 0.9));
    let largest = phase(&sums(&store)).expect("a pulse is heard");
    let level = single(sums(&store)[largest]);
    if let Some(lag) = own {
        store[lag] = level;
    }
    for lag in [HEARD - 2, HEARD - 3] {
        let off = level - sums(&store)[largest];
        store[lag] = single(off / taps()[largest][lag]);
    }
    let samples = [0, 1, 2, 3].map(|i| store[HEARD - i]);
    Pulse { samples, level }
}

#[cfg(test)]
mod tests {
    use super::*;
    use crate::audio::Format;
    use crate::model::place::{block, highest, peaks, Frame};
    use crate::whole::places::{Found, Places};

    /// What a block of so many frames and channels is bent to, heard from an
    /// empty store.
    fn bent(aims: &[Aim], audio: &Audio, channels: usize) -> Vec<Frame> {
        let mut audio = audio.clone();
        aims.iter().for_each(|aim| aim.bend(&mut audio, channels));
        block(&audio, &vec![0.0; channels * TAPS], 0)
    }

    fn silence(format: Format, samples: usize) -> Audio {
        let bytes = vec![0; format.size() * samples];
        Audio { format, bytes }
    }

    /// Frames that are as high as the highest, by a sample and by a detector.
    fn as_high(frames: &[Frame]) -> [Vec<usize>; 2] {
        let peak = highest(&peaks(frames));
        let has = |test: &dyn Fn(&Frame) -> bool| {
            let high = frames.iter().enumerate().filter(|(_, f)| test(f));
            high.map(|(at, _)| at).collect()
        };
        let sample = |f: &Frame| f.iter().any(|h| h.has_sample(peak));
        let answer = |f: &Frame| f.iter().any(|h| h.has_answer(peak));
        [has(&sample), has(&answer)]
    }

    /// In one channel and in two, at either sample type: a sample is as high as
    /// the detector, in the same frame or in the next.
    #[test]
    fn levels_are_the_detectors() {
        for (format, channels) in [
            (Format::F64, 1),
            (Format::F64, 2),
            (Format::F32, 1),
            (Format::F32, 2),
        ] {
            let (mut met, mut same) = (0, 0);
            for seed in 0..200 {
                let audio = silence(format, 60 * channels);
                let frames = bent(&[Aim::Level { seed }], &audio, channels);
                let [samples, answers] = as_high(&frames);
                met += usize::from(!samples.is_empty() && !answers.is_empty());
                same += usize::from(samples.iter().any(|at| answers.contains(at)));
            }
            assert!(
                met > 150 && same > 60,
                "{format:?} {channels}: {met}, {same}"
            );
        }
    }

    #[test]
    fn frames_come_again() {
        let samples: Vec<f32> = (0..80u8).map(|i| f32::from(i % 40) / 40.0).collect();
        let audio = Audio::of(&samples);
        for negated in [false, true] {
            let aim = Aim::Again {
                period: 17,
                negated,
            };
            let frames = bent(&[aim], &audio, 2);
            for (at, frame) in frames.iter().enumerate().skip(17) {
                let due = if negated && at / 17 == 1 { -1.0 } else { 1.0 };
                let first = frames[at % 17].iter().map(|h| due * h.sample);
                assert!(frame.iter().map(|h| h.sample).eq(first));
            }
        }
    }

    #[test]
    fn channels_are_twins() {
        let samples: Vec<f64> = (0..60).map(|i| f64::from(i * i % 37) - 18.0).collect();
        let audio = Audio::of(&samples);
        let mut places = Places::default();
        for seed in 0..40 {
            let frames = bent(&[Aim::Twins { seed }], &audio, 3);
            places.take(&Found::of(&frames), 20);
        }
        let met = ["on a sample", "between samples"].map(|row| places.met(row, "another channel"));
        assert!(met[0] + met[1] > 20, "{places:?}");
    }

    #[test]
    fn channels_that_count_are_hushed() {
        let samples = [1.0, f32::INFINITY, 1.0, -3.0, 1.0, -0.0];
        let (left_out, times) = (0b1010, 3);
        let mut audio = Audio::of(&samples);
        Aim::Hush { left_out, times }.bend(&mut audio, 3);
        let due = Audio::of(&[0.125, f32::INFINITY, 1.0, -3.0, 0.125, -0.0]);
        assert_eq!(audio, due);
    }

    /// A block that is cut keeps its first frames.
    #[test]
    fn first_frames_stay() {
        let samples: Vec<f64> = (0..50).map(|i| f64::from(i % 7)).collect();
        for seed in 0..20 {
            for aim in [
                Aim::Level { seed },
                Aim::Again {
                    period: 9,
                    negated: true,
                },
            ] {
                let long = bent(&[aim], &Audio::of(&samples), 1);
                let short = bent(&[aim], &Audio::of(&samples[..31]), 1);
                assert_eq!(long[..31], short[..]);
            }
        }
    }
}
