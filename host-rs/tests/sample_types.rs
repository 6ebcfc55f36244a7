//! Blocks and drains of f32, and of both sample types by turns on one state.

use daggeryuzu::sys::{self, LentStores, SetupStores, STATE};
use daggeryuzu::{Limiter, LimiterSettings, ProcessSpec, Sample};

const CHANNELS: usize = 2;
const FRAMES: usize = 500;

const SPEC: ProcessSpec = ProcessSpec {
    sample_rate: 48_000,
    channels: CHANNELS,
    max_block: FRAMES,
    max_memory: None,
};

fn limiter() -> Limiter {
    Limiter::prepare(LimiterSettings::default(), SPEC).expect("set up")
}

/// A block of noise within ±4, every sample one that an f32 holds.
fn noise(seed: usize) -> Vec<f64> {
    let mut x = (seed as u32 + 1).wrapping_mul(0x9e37_79b9) | 1;
    let sample = |_| {
        x ^= x << 13;
        x ^= x >> 17;
        x ^= x << 5;
        f64::from((f64::from(x) / 2_f64.powi(29) - 4.0) as f32)
    };
    (0..CHANNELS * FRAMES).map(sample).collect()
}

fn processed<T: Sample>(limiter: &mut Limiter, position: usize, samples: &[f64]) -> Vec<f64> {
    let mut audio: Vec<T> = samples.iter().map(|x| T::from_f64(*x)).collect();
    let done = limiter.process(position as u64, &mut audio, &[]);
    done.expect("a block");
    audio.iter().map(|x| x.to_f64()).collect()
}

/// So many frames of the tail, and whether it is done.
fn drained<T: Sample>(limiter: &mut Limiter, frames: usize) -> (Vec<f64>, bool) {
    let mut audio = vec![T::from_f64(7.0); CHANNELS * frames];
    let produced = limiter.flush(&mut audio).expect("a drain");
    assert_eq!(produced.frames, frames);
    let samples = audio.iter().map(|x| x.to_f64());
    (samples.collect(), produced.done)
}

fn bits(samples: &[f64]) -> Vec<u64> {
    samples.iter().map(|x| x.to_bits()).collect()
}

fn rounded(samples: &[f64]) -> Vec<f64> {
    samples.iter().map(|x| f64::from(*x as f32)).collect()
}

/// Eight blocks and a tail in two drains, a call as f32 where `narrow` says so of
/// its number. Each must give what a limiter kept to f64 gives, rounded where it
/// is of f32.
fn beside_f64(narrow: impl Fn(usize) -> bool) {
    let (mut limiter, mut wide) = (limiter(), limiter());
    for call in 0..8 {
        let (at, samples) = (call * FRAMES, noise(call));
        let due = processed::<f64>(&mut wide, at, &samples);
        let (given, due) = if narrow(call) {
            (processed::<f32>(&mut limiter, at, &samples), rounded(&due))
        } else {
            (processed::<f64>(&mut limiter, at, &samples), due)
        };
        assert_eq!(bits(&given), bits(&due), "block {call}");
    }
    let half = limiter.latency() / 2;
    for call in 8..10 {
        let (due, done) = drained::<f64>(&mut wide, half);
        let (given, due) = if narrow(call) {
            (drained::<f32>(&mut limiter, half), rounded(&due))
        } else {
            (drained::<f64>(&mut limiter, half), due)
        };
        assert_eq!(
            (bits(&given.0), given.1),
            (bits(&due), done),
            "drain {call}"
        );
        assert_eq!(done, call == 9);
    }
}

#[test]
fn an_f32_is_widened_and_its_output_rounded() {
    beside_f64(|_| true);
}

#[test]
fn a_call_of_one_type_may_follow_one_of_the_other() {
    beside_f64(|call| call % 2 == 0);
    beside_f64(|call| call % 3 == 1);
}

/// What goes in here as f64 and comes out as f32 meets a gain of 1 between. The
/// f64 below 1e-30 shows that small values become 0.0 before the rounding: its
/// nearest f32 would stay.
#[test]
fn ties_go_to_even_and_small_values_to_zero() {
    let step = 2_f64.powi(-24);
    let below = 1e-30_f64.next_down();
    assert!(f64::from(below as f32) > 1e-30);
    let table = [
        (0.5 + 0.5 * step, 0.5),
        (0.5 + 1.5 * step, 0.5 + 2.0 * step),
        (0.5 + 0.5 * step + 2_f64.powi(-53), 0.5 + step),
        (-0.5 - 0.5 * step, -0.5),
        (1e-29, f64::from(1e-29_f32)),
        (1e-30, f64::from(1e-30_f32)),
        (-1e-30, f64::from(-1e-30_f32)),
        (below, 0.0),
        (-below, 0.0),
        (1e-31, 0.0),
        (-1e-31, 0.0),
        (f64::NAN, 0.0),
        (f64::INFINITY, 0.0),
    ];
    for (x, due) in table {
        let mut limiter = limiter();
        let look = limiter.latency();
        processed::<f64>(&mut limiter, 0, &[x, 0.0]);
        let (tail, _) = drained::<f32>(&mut limiter, look);
        assert_eq!(tail[look - 1].to_bits(), due.to_bits(), "{x:e}");
    }
}

/// State and stores of a limiter that looks 11 frames ahead.
#[derive(Clone, Debug, PartialEq)]
struct Lent {
    state: [u8; STATE],
    delay: [f64; CHANNELS * 11],
    marks: [u64; 12],
    minima: [f64; 12],
    row: [f64; 1],
    detector: [f64; CHANNELS * 12],
}

impl Lent {
    fn set_up() -> Self {
        let mut lent = Self {
            state: [0; STATE],
            delay: [0.0; CHANNELS * 11],
            marks: [0; 12],
            minima: [0.0; 12],
            row: [0.0],
            detector: [0.0; CHANNELS * 12],
        };
        let settings = LimiterSettings::default().lookahead_ms(11.0 / 48.0);
        let stores = SetupStores {
            delay: &mut lent.delay,
            marks: &mut lent.marks,
            minima: &mut lent.minima,
            weights: &mut [1.0],
            row: &mut lent.row,
            detector: &mut lent.detector,
        };
        let number = sys::setup(&mut lent.state, &mut [], settings, SPEC, false, stores);
        assert_eq!(number, 0);
        lent
    }

    fn parts(&mut self) -> (&mut [u8], LentStores<'_>) {
        let stores = LentStores {
            delay: &mut self.delay,
            marks: &mut self.marks,
            minima: &mut self.minima,
            weights: &[1.0],
            row: &mut self.row,
            detector: &mut self.detector,
        };
        (&mut self.state, stores)
    }
}

/// Four frames are taken where a sample is `size` bytes; any other length is 20,
/// which changes nothing.
fn taken_at(size: usize, call: impl Fn(&mut [u8], &mut [u8], LentStores<'_>) -> u32) {
    let ready = Lent::set_up();
    for length in 0..=80 {
        let (mut lent, mut audio) = (ready.clone(), vec![7; length]);
        let (state, stores) = lent.parts();
        let number = call(state, &mut audio, stores);
        if length == size * CHANNELS * 4 {
            assert_eq!(number, 0);
        } else {
            assert_eq!(number, 20, "{length} bytes");
            assert_eq!((lent, audio), (ready.clone(), vec![7; length]));
        }
    }
}

#[test]
fn audio_of_another_length_is_refused() {
    taken_at(4, |s, x, l| sys::process_float(s, &mut [], 0, 4, &[], x, l));
    taken_at(4, |s, x, l| sys::flush_float(s, &mut [], 4, x, l));
    taken_at(8, |s, x, l| sys::process(s, &mut [], 0, 4, &[], x, l));
    taken_at(8, |s, x, l| sys::flush(s, &mut [], 4, x, l));
}
