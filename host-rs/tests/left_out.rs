//! Channels that are left out of the linked peak: what they and the others give out.

use daggeryuzu::{Limiter, LimiterSettings, PeakPlace, ProcessSpec, Sample};

const BLOCK: usize = 300;
const FRAMES: usize = 4 * BLOCK;
const LOOK: usize = 72;

fn limiter(settings: LimiterSettings, channels: usize) -> Limiter {
    let spec = ProcessSpec {
        sample_rate: 48_000,
        channels,
        max_block: BLOCK,
        max_memory: None,
    };
    Limiter::prepare(settings, spec).expect("set up")
}

/// These channels left out.
fn leaving_out(channels: &[usize]) -> LimiterSettings {
    let settings = LimiterSettings::default();
    channels.iter().fold(settings, |s, c| s.leave_out(*c))
}

/// A channel of noise within ±`height`, every sample one that an f32 holds.
fn noise(seed: u32, height: f64) -> Vec<f64> {
    let mut x = (seed + 1).wrapping_mul(0x9e37_79b9) | 1;
    let sample = |_| {
        x ^= x << 13;
        x ^= x >> 17;
        x ^= x << 5;
        f64::from((height * (f64::from(x) / 2_f64.powi(31) - 1.0)) as f32)
    };
    (0..FRAMES).map(sample).collect()
}

/// Three channels, each loud in a block of its own.
fn by_turns() -> [Vec<f64>; 3] {
    [0, 1, 2].map(|c| {
        let mut channel = noise(c, 0.5);
        let loud = c as usize * BLOCK..(c as usize + 1) * BLOCK;
        channel[loud].iter_mut().for_each(|x| *x *= 8.0);
        channel
    })
}

/// Channels through a limiter in blocks, and its tail in two drains: what each gives out,
/// as many frames as went in and the latency.
fn given<T: Sample>(limiter: &mut Limiter, channels: &[Vec<f64>]) -> Vec<Vec<f64>> {
    assert_eq!(limiter.latency(), LOOK);
    let mut out = vec![Vec::new(); channels.len()];
    let mut take = |audio: &[T]| {
        let planes = audio.chunks_exact(audio.len() / channels.len());
        for (out, plane) in out.iter_mut().zip(planes) {
            out.extend(plane.iter().map(|x| x.to_f64()));
        }
    };
    for at in (0..FRAMES).step_by(BLOCK) {
        let planes = channels.iter().flat_map(|c| &c[at..at + BLOCK]);
        let mut audio: Vec<T> = planes.map(|x| T::from_f64(*x)).collect();
        let done = limiter.process_audio(at as u64, &mut audio, &[]);
        done.expect("a block");
        take(&audio);
    }
    for done in [false, true] {
        let mut audio = vec![T::from_f64(7.0); channels.len() * LOOK / 2];
        assert_eq!(limiter.flush(&mut audio).expect("a drain").done, done);
        take(&audio);
    }
    out
}

/// What comes out of a new limiter.
fn first<T: Sample>(settings: LimiterSettings, channels: &[Vec<f64>]) -> Vec<Vec<f64>> {
    given::<T>(&mut limiter(settings, channels.len()), channels)
}

fn bits(samples: &[f64]) -> Vec<u64> {
    samples.iter().map(|x| x.to_bits()).collect()
}

/// A channel held back, times these gains, as an output is made.
fn scaled<T: Sample>(channel: &[f64], gains: &[f64]) -> Vec<f64> {
    let held_back = std::iter::repeat_n(&0.0, LOOK).chain(channel);
    let outputs = held_back.zip(gains).map(|(x, gain)| {
        let y = x * gain;
        let y = if y.abs() < 1e-30 { 0.0 } else { y };
        T::from_f64(y).to_f64()
    });
    outputs.collect()
}

#[test]
fn by_default_every_channel_counts() {
    let settings = LimiterSettings::default();
    assert_eq!((settings.counts, settings.left_out()), ([true; 8], 0));
    assert_eq!(settings.leave_out(8), settings);
    let counts = [true, false, true, true, true, true, true, false];
    let settings = settings.counts(counts);
    assert_eq!(settings, leaving_out(&[7, 1]));
    assert_eq!(settings.left_out(), 0b1000_0010);
    assert_eq!(limiter(settings, 3).counts(), [true, false, true]);
}

/// The gains, told by a channel of ones that is left out too: 1 times a gain is that gain.
fn gains(left_out: usize, loud: &[Vec<f64>]) -> Vec<f64> {
    let mut channels = loud.to_vec();
    channels.push(vec![1.0; FRAMES]);
    let settings = leaving_out(&[left_out, loud.len()]);
    let ones = first::<f64>(settings, &channels).pop().expect("ones");
    // until the first of them leaves nothing else does
    [vec![1.0; LOOK], ones[LOOK..].to_vec()].concat()
}

/// Every channel gives out its delayed samples times one gain, that of the others.
#[test]
fn a_left_out_channel_has_the_gain_of_the_others() {
    fn one_type<T: Sample>() {
        let loud = by_turns();
        for left_out in 0..3 {
            let gains = gains(left_out, &loud);
            assert!(gains.iter().any(|g| *g < 0.3) && gains.iter().any(|g| *g > 0.9));
            let out = first::<T>(leaving_out(&[left_out]), &loud);
            for (channel, out) in loud.iter().zip(out) {
                assert!(bits(&out) == bits(&scaled::<T>(channel, &gains)));
            }
        }
    }
    one_type::<f64>();
    one_type::<f32>();
}

/// The others come out as they would beside silence, where that counts.
#[test]
fn the_gain_is_that_beside_silence() {
    fn one_type<T: Sample>() {
        let loud = by_turns();
        for left_out in 0..3 {
            let mut silenced = loud.clone();
            silenced[left_out].fill(0.0);
            let due = first::<T>(LimiterSettings::default(), &silenced);
            let out = first::<T>(leaving_out(&[left_out]), &loud);
            let all = first::<T>(LimiterSettings::default(), &loud);
            for channel in (0..3).filter(|c| *c != left_out) {
                assert!(bits(&out[channel]) == bits(&due[channel]));
                assert!(bits(&out[channel]) != bits(&all[channel]));
            }
        }
    }
    one_type::<f64>();
    one_type::<f32>();
}

/// Thunder does not duck the voices, up to the last drained frame, and it passes the
/// target: nobody looks at it.
#[test]
fn a_left_out_channel_alone_is_not_limited() {
    let channels = [noise(1, 0.3), noise(2, 0.2), noise(3, 8.0)];
    let out = first::<f64>(leaving_out(&[2]), &channels);
    for (channel, out) in channels.iter().zip(&out) {
        assert!(bits(&out[LOOK..]) == bits(channel));
    }
    assert!(out[2].iter().any(|y| y.abs() > 7.0));
    let out = first::<f64>(LimiterSettings::default(), &channels);
    assert!(out[2].iter().all(|y| y.abs() < 0.9));
    assert!(out[0].iter().all(|y| y.abs() < 0.1));
}

/// With none counted every gain is 1: out comes what went in, sanitized, with what is
/// below 1e-30 as 0.0. There is no peak to tell of.
#[test]
fn with_none_counted_nothing_is_limited() {
    let odd = [f64::NAN, f64::NEG_INFINITY, 1e-31, -0.0, -1e-29, 1e30];
    for channels in 1..=8 {
        let settings = LimiterSettings::default().counts([false; 8]);
        let mut loud: Vec<Vec<f64>> = (0..channels).map(|c| noise(c as u32, 100.0)).collect();
        for (plane, at) in loud.iter_mut().zip([0, 1, 77, 299, 300, 500, 1100, 1190]) {
            plane[at..at + odd.len()].copy_from_slice(&odd);
        }
        let out = first::<f64>(settings, &loud);
        for (plane, out) in loud.iter().zip(&out) {
            let passed = plane.iter().map(|x| match x {
                x if x.is_finite() && x.abs() >= 1e-30 => *x,
                _ => 0.0,
            });
            let due: Vec<f64> = std::iter::repeat_n(0.0, LOOK).chain(passed).collect();
            assert!(bits(out) == bits(&due), "{channels} channels");
        }
        let mut audio = vec![4.0; channels * BLOCK];
        let told = limiter(settings, channels).process(0, &mut audio, &[]);
        assert_eq!(told, Ok(None));
    }
}

#[test]
fn a_reset_keeps_it() {
    let loud = by_turns();
    let mut limiter = limiter(leaving_out(&[1]), 3);
    let due = given::<f64>(&mut limiter, &loud);
    limiter.reset().expect("a reset");
    assert!(given::<f64>(&mut limiter, &loud) == due);
}

fn silence() -> Vec<f64> {
    vec![0.0; BLOCK]
}

/// Silence but for one frame.
fn peak(frame: usize, x: f64) -> Vec<f64> {
    let mut plane = silence();
    plane[frame] = x;
    plane
}

/// Two samples of 0.5, the second at frame 51, between which the signal is higher; the
/// detector hears it at frame 56, in phase 1.
fn pair() -> Vec<f64> {
    let mut plane = silence();
    plane[50..52].fill(0.5);
    plane
}

/// What a first block tells, by both sample types.
fn told(left_out: &[usize], planes: &[Vec<f64>]) -> Option<PeakPlace> {
    fn one_type<T: Sample>(left_out: &[usize], planes: &[Vec<f64>]) -> Option<PeakPlace> {
        let mut audio: Vec<T> = planes.concat().iter().map(|x| T::from_f64(*x)).collect();
        let mut limiter = limiter(leaving_out(left_out), planes.len());
        limiter.process(0, &mut audio, &[]).expect("a block")
    }
    let place = one_type::<f64>(left_out, planes);
    assert_eq!(one_type::<f32>(left_out, planes), place);
    place
}

#[test]
fn the_peak_place_is_in_a_channel_that_counts() {
    let on = |frame, channel| Some(PeakPlace::OnSample { frame, channel });
    let planes = [peak(70, 0.5), peak(20, 2.0), peak(70, -0.5)];
    assert_eq!(told(&[], &planes), on(20, 1));
    assert_eq!(told(&[1], &planes), on(70, 0));
    // of the channels that count the lowest
    assert_eq!(told(&[0, 1], &planes), on(70, 2));
    assert_eq!(told(&[0, 1, 2], &planes), None);
    // silence in all that count
    assert_eq!(told(&[1], &[silence(), peak(20, 2.0)]), None);
}

#[test]
fn a_left_out_sample_does_not_go_before_a_detector() {
    let between = |channel| {
        let (frame, phase) = (56, 1);
        Some(PeakPlace::Between {
            frame,
            channel,
            phase,
        })
    };
    let on = |frame, channel| Some(PeakPlace::OnSample { frame, channel });
    let planes = [pair(), peak(56, 4.0), pair()];
    assert_eq!(told(&[], &planes), on(56, 1));
    assert_eq!(told(&[1], &planes), between(0));
    assert_eq!(told(&[0, 1], &planes), between(2));
    assert_eq!(told(&[0, 2], &planes), on(56, 1));
}
