//! What is said: syllables with their plosives, hisses and pauses.

use std::f64::consts::TAU;

use super::noise::Noise;
use super::voice::{between, Mouth, Resonance, Shape, Throat};
use super::RATE;

const A: Shape = [730.0, 1090.0, 2440.0];
const E: Shape = [530.0, 1840.0, 2480.0];
const I: Shape = [270.0, 2290.0, 3010.0];
const O: Shape = [570.0, 840.0, 2410.0];
const U: Shape = [300.0, 870.0, 2240.0];

/// How a syllable starts.
#[derive(Clone, Copy, PartialEq)]
enum Start {
    Soft,
    Burst,
    Hiss,
    /// A hiss with a whistle whose peaks lie between the samples.
    Whistle,
}

use Start::{Burst, Hiss, Soft, Whistle};

/// Start, from which vowel to which, seconds, pitch in Hz, loudness; and a
/// pause in seconds after it.
type Syllable = (Start, Shape, Shape, f64, f64, f64, f64);

const SENTENCE: [Syllable; 12] = [
    (Soft, A, I, 0.26, 118.0, 0.55, 0.03),
    (Burst, O, A, 0.22, 124.0, 0.90, 0.02),
    (Hiss, E, I, 0.20, 131.0, 0.50, 0.05),
    (Soft, U, O, 0.30, 120.0, 0.70, 0.22),
    (Burst, A, E, 0.24, 140.0, 1.25, 0.02),
    (Whistle, I, E, 0.22, 134.0, 0.60, 0.03),
    (Soft, O, U, 0.28, 112.0, 0.45, 0.30),
    (Burst, E, A, 0.26, 152.0, 1.60, 0.03),
    (Burst, I, I, 0.16, 144.0, 0.80, 0.02),
    (Whistle, A, O, 0.30, 126.0, 0.95, 0.04),
    (Soft, E, U, 0.24, 110.0, 0.50, 0.02),
    (Hiss, A, A, 0.36, 98.0, 0.65, 0.62),
];

/// How loud the sentence is each time that it is said.
const TIMES: [f64; 4] = [0.55, 0.9, 1.3, 0.7];

/// The chapter, one channel, kept within full scale as a recorder keeps it.
pub(super) fn spoken() -> Vec<f64> {
    let mut speaker = Speaker {
        noise: Noise::new(),
        throat: Throat::default(),
        mouth: Mouth::default(),
        burst: Resonance::default(),
        frames: silence(0.4),
    };
    for loudness in TIMES {
        for syllable in SENTENCE {
            speaker.say(syllable, loudness);
        }
    }
    speaker.frames
}

fn count(seconds: f64) -> usize {
    (seconds * f64::from(RATE)) as usize
}

fn silence(seconds: f64) -> Vec<f64> {
    vec![0.0; count(seconds)]
}

struct Speaker {
    noise: Noise,
    throat: Throat,
    mouth: Mouth,
    burst: Resonance,
    frames: Vec<f64>,
}

impl Speaker {
    fn say(&mut self, syllable: Syllable, loudness: f64) {
        let (start, from, to, seconds, pitch, level, pause) = syllable;
        let level = level * loudness;
        match start {
            Soft => {}
            Burst => self.burst(level),
            Hiss | Whistle => self.hiss(0.09, level, start == Whistle),
        }
        let frames = count(seconds);
        for i in 0..frames {
            let part = i as f64 / frames as f64;
            let swell = libm::sqrt(libm::sin(std::f64::consts::PI * part));
            let glide = pitch * (1.06 - 0.14 * part);
            let breath = 0.0006 * self.noise.next();
            let push = self.throat.next(glide) + breath;
            let voice = self.mouth.shape(push, between(from, to, part));
            self.put(9.0 * level * swell * voice);
        }
        for _ in 0..count(pause) {
            let room = self.mouth.shape(0.0, to) + 2e-5 * self.noise.next();
            self.put(room);
        }
    }

    /// A closed mouth, then air at once.
    fn burst(&mut self, level: f64) {
        self.frames.extend(silence(0.045));
        for i in 0..count(0.035) {
            let fall = libm::exp(-(i as f64) / 320.0);
            let push = if i < 3 { 4.0 } else { self.noise.next() };
            let air = self.burst.ring(push, 1400.0, 900.0);
            self.put(0.55 * level * fall * air);
        }
    }

    /// High noise; the whistle is a tone at a quarter of the rate, sampled
    /// beside its peaks, which are 3 dB higher than its samples.
    fn hiss(&mut self, seconds: f64, level: f64, whistle: bool) {
        let frames = count(seconds);
        let mut last = 0.0;
        for i in 0..frames {
            let swell = libm::sin(std::f64::consts::PI * i as f64 / frames as f64);
            let now = self.noise.next();
            let air = 0.22 * (now - last);
            last = now;
            let tone = if whistle {
                0.8 * libm::sin(TAU * (i as f64 / 4.0 + 0.125))
            } else {
                0.0
            };
            self.put(level * swell * (air + tone));
        }
    }

    fn put(&mut self, x: f64) {
        self.frames.push(x.clamp(-1.0, 1.0));
    }
}
