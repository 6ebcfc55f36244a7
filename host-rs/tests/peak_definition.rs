//! Where the highest peak sat, beside a plain reading of the definition: noise of many
//! kinds, with few values so that peaks tie, in blocks, drains and resets by turns. In
//! half of the sessions all channels count, in the others some do.

use daggeryuzu::{Limiter, LimiterSettings, PeakPlace, ProcessSpec, Sample};

const BLOCK: usize = 150;

/// The taps of the detector's four phases, from the file that the proofs speak of.
fn taps() -> Vec<[f64; 12]> {
    let text = include_str!("../../crates/detector/specs/Taps.antt");
    let numbers = text.split("bits 0x").skip(1).map(|rest| {
        let hex = rest.split_whitespace().next().expect("a number");
        f64::from_bits(u64::from_str_radix(&hex.replace('_', ""), 16).expect("hexadecimal"))
    });
    let numbers: Vec<f64> = numbers.collect();
    assert_eq!(numbers.len(), 48);
    let phases = numbers.chunks_exact(12);
    phases.map(|p| p.try_into().expect("twelve")).collect()
}

/// What every channel's detector remembers, newest first.
struct Definition {
    taps: Vec<[f64; 12]>,
    remembered: Vec<[f64; 12]>,
    counts: [bool; 8],
}

impl Definition {
    fn new(channels: usize, counts: [bool; 8]) -> Self {
        Self {
            taps: taps(),
            remembered: vec![[0.0; 12]; channels],
            counts,
        }
    }

    /// A channel's next sample: the magnitudes of the phases.
    fn push(&mut self, channel: usize, x: f64) -> Vec<f64> {
        let remembered = &mut self.remembered[channel];
        remembered.rotate_right(1);
        remembered[0] = x;
        let sum = |phase: &[f64; 12]| {
            let products = phase.iter().zip(&*remembered);
            products.fold(0.0, |sum, (tap, x)| sum + tap * x).abs()
        };
        self.taps.iter().map(sum).collect()
    }

    /// A block, planar.
    fn block(&mut self, audio: &[f64]) -> Option<PeakPlace> {
        let channels = self.remembered.len();
        let frames = audio.len() / channels;
        let mut highest = (0.0, None);
        for frame in 0..frames {
            let sample = |c: usize| Some(audio[c * frames + frame]).filter(|x| x.is_finite());
            let samples: Vec<f64> = (0..channels).map(|c| sample(c).unwrap_or(0.0)).collect();
            let mut heard: Vec<Vec<f64>> =
                (0..channels).map(|c| self.push(c, samples[c])).collect();
            let mut magnitudes: Vec<f64> = samples.iter().map(|x| x.abs()).collect();
            // a NaN never wins
            for left_out in (0..channels).filter(|c| !self.counts[*c]) {
                magnitudes[left_out] = f64::NAN;
                heard[left_out].fill(f64::NAN);
            }
            let all = magnitudes.iter().chain(heard.iter().flatten());
            let peak = all.fold(0.0, |most, x| x.max(most));
            if peak > highest.0 {
                highest = (peak, place(frame, peak, &magnitudes, &heard));
            }
        }
        highest.1
    }
}

fn place(frame: usize, peak: f64, magnitudes: &[f64], heard: &[Vec<f64>]) -> Option<PeakPlace> {
    let first = |xs: &[f64]| xs.iter().position(|x| *x == peak);
    if let Some(channel) = first(magnitudes) {
        return Some(PeakPlace::OnSample { frame, channel });
    }
    heard.iter().enumerate().find_map(|(channel, phases)| {
        first(phases).map(|phase| PeakPlace::Between {
            frame,
            channel,
            phase,
        })
    })
}

/// Numbers to choose by.
struct Dice(u64);

impl Dice {
    fn below(&mut self, most: usize) -> usize {
        self.0 ^= self.0 << 13;
        self.0 ^= self.0 >> 7;
        self.0 ^= self.0 << 17;
        (self.0 >> 20) as usize % most
    }

    /// Samples of one of the kinds below.
    fn samples(&mut self, length: usize) -> Vec<f64> {
        let kind = self.below(KINDS.len());
        (0..length).map(|_| KINDS[kind](self)).collect()
    }
}

const KINDS: [fn(&mut Dice) -> f64; 9] = [
    |_| 0.0,
    // few values, loud and quiet
    |d| [-1.0, -0.5, 0.0, 0.5, 1.0][d.below(5)],
    |d| [-0.125, 0.0, 0.125][d.below(3)],
    |d| [2_f64.powi(-110), 0.0, 0.0][d.below(3)],
    // many
    |d| d.below(1 << 30) as f64 / 2_f64.powi(28) - 2.0,
    |d| d.below(1 << 30) as f64 / 2_f64.powi(33) - 0.0625,
    // single ones
    |d| [-0.75, 0.75, 0.0, 0.0][d.below(40).min(3)],
    // not finite, and next to it
    |d| [f64::NAN, f64::INFINITY, 0.25, -0.25, 0.0][d.below(5)],
    |d| [f64::MAX, -f64::MAX, 0.5][d.below(3)],
];

/// A limiter and the definition, given the same calls.
struct Both {
    limiter: Limiter,
    definition: Definition,
    channels: usize,
    position: u64,
}

impl Both {
    fn new(channels: usize, counts: [bool; 8], position: u64) -> Self {
        let spec = ProcessSpec {
            sample_rate: 48_000,
            channels,
            max_block: BLOCK,
            max_memory: None,
        };
        Self {
            limiter: Limiter::prepare(LimiterSettings::default().counts(counts), spec)
                .expect("set up"),
            definition: Definition::new(channels, counts),
            channels,
            position,
        }
    }

    /// What both tell of a block.
    fn block<T: Sample>(&mut self, samples: &[f64]) -> Option<PeakPlace> {
        let mut audio: Vec<T> = samples.iter().map(|x| T::from_f64(*x)).collect();
        // as the type holds them
        let samples: Vec<f64> = audio.iter().map(|x| x.to_f64()).collect();
        let told = self.limiter.process(self.position, &mut audio, &[]);
        let due = self.definition.block(&samples);
        assert_eq!(told, Ok(due), "{} channels: {samples:?}", self.channels);
        self.position += (samples.len() / self.channels) as u64;
        due
    }

    /// A drain goes on with the detectors and tells nothing.
    fn drain<T: Sample>(&mut self, frames: usize) {
        let mut audio = vec![T::from_f64(7.0); self.channels * frames];
        let produced = self.limiter.flush(&mut audio).expect("a drain");
        self.definition
            .block(&vec![0.0; self.channels * produced.frames]);
    }

    fn reset(&mut self) {
        self.limiter.reset().expect("a reset");
        self.definition = Definition::new(self.channels, self.definition.counts);
    }
}

/// Calls by turns, mostly blocks: how many told a place on a sample, and between.
fn beside<T: Sample>(channels: usize, dice: &mut Dice) -> [usize; 2] {
    let mut counts = [true; 8];
    if dice.below(2) == 0 {
        counts = counts.map(|_| dice.below(3) > 0);
    }
    let mut both = Both::new(channels, counts, dice.below(100) as u64);
    let mut places = [0; 2];
    for _ in 0..60 {
        let frames = [0, 1, 7, 32, BLOCK, dice.below(BLOCK)][dice.below(6)];
        match dice.below(12) {
            0 => both.drain::<T>(frames),
            1 => both.reset(),
            _ => match both.block::<T>(&dice.samples(channels * frames)) {
                Some(PeakPlace::OnSample { .. }) => places[0] += 1,
                Some(PeakPlace::Between { .. }) => places[1] += 1,
                None => (),
            },
        }
    }
    places
}

#[test]
fn every_place_is_the_definitions() {
    let (mut dice, mut places) = (Dice(0x9e37_79b9_7f4a_7c15), [0; 2]);
    for channels in (1..=8).cycle().take(32) {
        let wide = beside::<f64>(channels, &mut dice);
        let narrow = beside::<f32>(channels, &mut dice);
        places = [0, 1].map(|i| places[i] + wide[i] + narrow[i]);
    }
    assert!(places.iter().all(|n| *n > 300), "{places:?}");
}
