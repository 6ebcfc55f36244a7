//! Where a block's highest peak sat, row by row. Each row goes through both sample
//! types, unless it has numbers that no f32 holds.

use std::f64::consts::{FRAC_PI_2, PI};

use daggeryuzu::sys::{self, LentStores, SetupStores, ANSWER, STATE};
use daggeryuzu::{Limiter, LimiterSettings, PeakPlace, ProcessSpec, Sample};

const FRAMES: usize = 200;

fn spec(channels: usize) -> ProcessSpec {
    ProcessSpec {
        sample_rate: 48_000,
        channels,
        max_block: FRAMES,
        max_memory: None,
    }
}

fn limiter(channels: usize) -> Limiter {
    Limiter::prepare(LimiterSettings::default(), spec(channels)).expect("set up")
}

/// What a block of these samples tells.
fn told<T: Sample>(limiter: &mut Limiter, samples: &[f64]) -> Option<PeakPlace> {
    let mut audio: Vec<T> = samples.iter().map(|x| T::from_f64(*x)).collect();
    // the limiter goes in runs that end at multiples of 32
    limiter.process(33, &mut audio, &[]).expect("a block")
}

/// What the first block tells, which both sample types must.
fn first(planes: &[Vec<f64>]) -> Option<PeakPlace> {
    let samples = planes.concat();
    let place = told::<f64>(&mut limiter(planes.len()), &samples);
    let narrow = told::<f32>(&mut limiter(planes.len()), &samples);
    assert_eq!(narrow, place);
    place
}

fn on_sample(frame: usize, channel: usize) -> Option<PeakPlace> {
    Some(PeakPlace::OnSample { frame, channel })
}

fn between(frame: usize, channel: usize, phase: usize) -> Option<PeakPlace> {
    Some(PeakPlace::Between {
        frame,
        channel,
        phase,
    })
}

fn silence() -> Vec<f64> {
    vec![0.0; FRAMES]
}

/// Silence but for these frames.
fn plane(samples: &[(usize, f64)]) -> Vec<f64> {
    let mut plane = silence();
    for (frame, x) in samples {
        plane[*frame] = *x;
    }
    plane
}

/// A tone at a quarter of the rate that swells and fades, highest at the frame `top`,
/// between samples or on one.
fn burst(top: f64) -> Vec<f64> {
    let sample = |frame: usize| {
        let t = frame as f64 - top;
        let swell = (PI * t / 40.0).cos().powi(2);
        if t.abs() < 20.0 {
            0.8 * swell * (FRAC_PI_2 * t).cos()
        } else {
            0.0
        }
    };
    (0..FRAMES).map(sample).collect()
}

/// Two samples, the second at frame 51, between which the signal is higher, by the same
/// sum in phases 1 and 2.
fn pair() -> Vec<f64> {
    plane(&[(50, 0.5), (51, 0.5)])
}

#[test]
fn on_a_sample() {
    let planes = [silence(), plane(&[(100, -0.5)]), plane(&[(30, 0.25)])];
    let place = first(&planes);
    assert_eq!(place, on_sample(100, 1));
    assert_eq!(place.map(PeakPlace::frame), Some(100));
    assert_eq!(place.map(PeakPlace::channel), Some(1));
    assert_eq!(place.map(PeakPlace::at), Some(100.0));
    for frame in [0, 1, 30, 31, 32, 63, FRAMES - 1] {
        assert_eq!(first(&[plane(&[(frame, 2.0)])]), on_sample(frame, 0));
    }
    assert_eq!(first(&[burst(100.0)]), on_sample(100, 0));
}

#[test]
fn between_samples_at_each_phase() {
    for phase in 0..4 {
        let top = 100.0 + (2 * phase + 1) as f64 / 8.0;
        let place = first(&[silence(), burst(top)]);
        assert_eq!(place, between(106, 1, phase));
        assert_eq!(place.map(PeakPlace::frame), Some(106));
        assert_eq!(place.map(PeakPlace::channel), Some(1));
        assert_eq!(place.map(PeakPlace::at), Some(top));
    }
}

/// However quiet: the limiter has other ways through a quiet block.
#[test]
fn quiet_blocks_tell_it_too() {
    for level in [2_f64.powi(-4), 2_f64.powi(-40), 2_f64.powi(-100)] {
        let quiet = |plane: Vec<f64>| plane.iter().map(|x| x * level).collect();
        let loud: [Vec<f64>; 2] = [quiet(burst(60.375)), quiet(plane(&[(90, 0.5)]))];
        assert_eq!(first(&loud), between(66, 0, 1), "{level:e}");
        let loud: [Vec<f64>; 2] = [quiet(burst(60.375)), quiet(plane(&[(90, 1.0)]))];
        assert_eq!(first(&loud), on_sample(90, 1), "{level:e}");
    }
}

#[test]
fn of_equal_channels_the_lowest() {
    let (one, other) = (plane(&[(70, 0.5)]), plane(&[(70, -0.5)]));
    assert_eq!(
        first(&[silence(), one.clone(), other.clone()]),
        on_sample(70, 1)
    );
    assert_eq!(first(&[silence(), other, one]), on_sample(70, 1));
    let tone = burst(70.875);
    let turned = tone.iter().map(|x| -x).collect();
    assert_eq!(first(&[silence(), turned, tone]), between(76, 1, 3));
}

#[test]
fn of_equal_frames_the_first() {
    let twice = plane(&[(40, -0.5), (80, 0.5)]);
    assert_eq!(first(&[twice]), on_sample(40, 0));
    let (early, late) = (plane(&[(40, 0.5)]), plane(&[(80, 0.5)]));
    assert_eq!(first(&[late, early]), on_sample(40, 1));
    let mut twice = burst(40.625);
    let again = twice[..100].to_vec();
    twice[100..].copy_from_slice(&again);
    assert_eq!(first(&[twice]), between(46, 0, 2));
}

#[test]
fn of_equal_phases_the_first() {
    let place = first(&[pair()]);
    assert_eq!(place, between(56, 0, 1));
    assert_eq!(place.map(PeakPlace::at), Some(50.375));
}

#[test]
fn silence_has_none() {
    assert_eq!(first(&[silence(), silence()]), None);
    assert_eq!(first(&[vec![], vec![]]), None);
    assert_eq!(first(&[vec![-0.0; FRAMES]]), None);
    let odd = [f64::NAN, f64::INFINITY, f64::NEG_INFINITY, 0.0];
    let odd: Vec<f64> = odd.iter().copied().cycle().take(FRAMES).collect();
    assert_eq!(first(&[odd.clone(), silence()]), None);
    let planes = [odd, plane(&[(9, 2_f64.powi(-120))])];
    assert_eq!(first(&planes), on_sample(9, 1));
}

/// The detector goes on: a peak near a block's end is heard in the next one, if it is
/// the highest there. An empty block changes nothing.
#[test]
fn the_next_block_hears_what_came_before_it() {
    fn one_type<T: Sample>() {
        let mut limiter = limiter(1);
        let last = plane(&[(FRAMES - 1, 0.5)]);
        assert_eq!(told::<T>(&mut limiter, &last), on_sample(FRAMES - 1, 0));
        assert_eq!(told::<T>(&mut limiter, &[]), None);
        let place = told::<T>(&mut limiter, &[0.0; 12]);
        assert_eq!(place, between(4, 0, 3));
        assert_eq!(place.map(PeakPlace::at), Some(-1.125));
        assert_eq!(told::<T>(&mut limiter, &silence()), None);
        // heard once, in a drain, it is told nowhere
        assert_eq!(told::<T>(&mut limiter, &last), on_sample(FRAMES - 1, 0));
        let mut tail = vec![T::from_f64(7.0); 12];
        assert!(!limiter.flush(&mut tail).expect("a drain").done);
        assert_eq!(told::<T>(&mut limiter, &silence()), None);
        // and a reset forgets it
        assert_eq!(told::<T>(&mut limiter, &last), on_sample(FRAMES - 1, 0));
        limiter.reset().expect("a reset");
        assert_eq!(told::<T>(&mut limiter, &silence()), None);
    }
    one_type::<f64>();
    one_type::<f32>();
}

/// A sample of the highest frame that is as high as a detector's answer there goes
/// before it, also of a later channel; one that is a last bit lower does not. No f32 is
/// as high as that.
#[test]
fn a_sample_goes_before_a_detector() {
    // phase 1 meets the two samples with these taps
    let taps = [0x3fdd_44a6_40fb_f4e3, 0x3fe8_d530_d7f5_a136].map(f64::from_bits);
    let heard = 0.5 * taps[0] + 0.5 * taps[1];
    let beside = |x: f64| [pair(), silence(), plane(&[(56, x)]), plane(&[(56, -x)])].concat();
    for (x, due) in [
        (0.0, between(56, 0, 1)),
        (heard.next_down(), between(56, 0, 1)),
        (heard, on_sample(56, 2)),
        (heard.next_up(), on_sample(56, 2)),
    ] {
        assert_eq!(told::<f64>(&mut limiter(4), &beside(x)), due, "{x:e}");
    }
}

#[test]
fn a_refused_block_tells_none() {
    let mut limiter = limiter(2);
    let refused = limiter.process(0, &mut [1.0; 3], &[]);
    assert_eq!(refused.map_err(|e| e.number()), Err(20));
}

/// State and stores of a stereo limiter that looks 11 frames ahead.
struct Lent {
    state: [u8; STATE],
    delay: [f64; 22],
    marks: [u64; 12],
    minima: [f64; 12],
    row: [f64; 1],
    detector: [f64; 24],
}

impl Lent {
    fn set_up() -> Self {
        let mut lent = Self {
            state: [0; STATE],
            delay: [0.0; 22],
            marks: [0; 12],
            minima: [0.0; 12],
            row: [0.0],
            detector: [0.0; 24],
        };
        let settings = LimiterSettings::default().lookahead_ms(11.0 / 48.0);
        let stores = SetupStores {
            delay: &mut lent.delay,
            marks: &mut lent.marks,
            minima: &mut lent.minima,
            weights: &mut [1.0],
            row: &mut lent.row,
            detector: &mut lent.detector,
        };
        let number = sys::setup(&mut lent.state, &mut [], settings, spec(2), false, stores);
        assert_eq!(number, 0);
        lent
    }

    fn parts(&mut self) -> (&mut [u8], LentStores<'_>) {
        let stores = LentStores {
            delay: &mut self.delay,
            marks: &mut self.marks,
            minima: &mut self.minima,
            weights: &[1.0],
            row: &mut self.row,
            detector: &mut self.detector,
        };
        (&mut self.state, stores)
    }
}

/// The words of a block's answer, in buffers of every length, and of the drain's that
/// follows it.
#[test]
fn the_words_are_told_as_far_as_they_fit() {
    let block = |planes: [Vec<f64>; 2]| -> Vec<u8> {
        let samples = planes.concat();
        samples.iter().flat_map(|x| x.to_le_bytes()).collect()
    };
    for (audio, due) in [
        (block([silence(), silence()]), [0; 4]),
        (block([silence(), plane(&[(150, 0.5)])]), [1, 150, 1, 0]),
        (block([silence(), burst(150.625)]), [2, 156, 1, 2]),
    ] {
        for length in 0..=ANSWER + 2 {
            let (mut lent, mut audio, mut answer) =
                (Lent::set_up(), audio.clone(), vec![7; length]);
            let (state, stores) = lent.parts();
            let number = sys::process(state, &mut answer, 0, FRAMES, &[], &mut audio, stores);
            assert_eq!(number, 0);
            let words = [&due[..], &[0, 0, 0, 0, 7, 7]].concat();
            assert_eq!(answer, words[..length]);
            let (state, stores) = lent.parts();
            let number = sys::flush(state, &mut answer, FRAMES, &mut audio, stores);
            assert_eq!(number, 0);
            assert_eq!(answer, [11, 1, 0, 0, 0, 0, 0, 0, 7, 7][..length]);
        }
    }
}
