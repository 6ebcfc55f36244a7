//! Blocks that are not asked where their highest peak sat.

use daggeryuzu::{Limiter, LimiterSettings, ParamEvent, ProcessSpec, Refusal, Sample};

const CHANNELS: usize = 2;
const FRAMES: usize = 200;

fn limiter() -> Limiter {
    set_up(LimiterSettings::default())
}

fn set_up(settings: LimiterSettings) -> Limiter {
    let spec = ProcessSpec {
        sample_rate: 48_000,
        channels: CHANNELS,
        max_block: FRAMES,
        max_memory: None,
    };
    Limiter::prepare(settings, spec).expect("set up")
}

/// A block of noise, loud, quiet or silent by its number, with what is not finite in some.
fn noise<T: Sample>(number: usize) -> Vec<T> {
    let mut x = (number as u32 + 1).wrapping_mul(0x9e37_79b9) | 1;
    let height = [4.0, 0.1, 0.0, 0.9][number % 4];
    let sample = |i: usize| {
        x ^= x << 13;
        x ^= x >> 17;
        x ^= x << 5;
        let odd = [f64::NAN, f64::INFINITY, f64::NEG_INFINITY];
        match odd.get((i + number) % 90) {
            Some(odd) if number % 3 == 1 => T::from_f64(*odd),
            _ => T::from_f64(height * (f64::from(x) / 2_f64.powi(31) - 1.0)),
        }
    };
    (0..CHANNELS * FRAMES).map(sample).collect()
}

fn bits<T: Sample>(audio: &[T]) -> Vec<u64> {
    audio.iter().map(|x| x.to_f64().to_bits()).collect()
}

fn event(offset: u32, value: f64) -> ParamEvent {
    let param = daggeryuzu::THRESHOLD_DB;
    ParamEvent {
        offset,
        param,
        value,
    }
}

/// The events of a block by its number: none in the first eight, so that the bank stays
/// at rest.
fn events(number: usize) -> Vec<ParamEvent> {
    let all = [event(7, -3.0 - number as f64), event(190, -1.0)];
    all[..if number < 8 { 0 } else { number % 3 }].to_vec()
}

/// All that a limiter is: state, stores and all.
fn whole(limiter: &Limiter) -> String {
    format!("{limiter:?}")
}

/// Sixteen blocks through a limiter that is asked and one that is not: after each the
/// same audio, and the same state and stores. That the place is not looked for shows in
/// nothing but the time (bench/README.md).
fn the_same_audio<T: Sample>(settings: LimiterSettings) {
    let (mut asked, mut other) = (set_up(settings), set_up(settings));
    let mut places = 0;
    for number in 0..16 {
        let position = (number * FRAMES) as u64;
        let events = events(number);
        let (mut a, mut b) = (noise::<T>(number), noise::<T>(number));
        let place = asked.process(position, &mut a, &events).expect("a block");
        let done = other.process_audio(position, &mut b, &events);
        assert_eq!(done, Ok(()));
        assert_eq!(bits(&a), bits(&b), "block {number}");
        assert_eq!(whole(&asked), whole(&other), "block {number}");
        places += usize::from(place.is_some());
    }
    assert!(places > 8, "{places}");
}

#[test]
fn who_does_not_ask_gets_the_same_audio() {
    let settings = LimiterSettings::default();
    for settings in [settings, settings.leave_out(0), settings.leave_out(1)] {
        the_same_audio::<f64>(settings);
        the_same_audio::<f32>(settings);
    }
}

/// A refused block tells its values to who does not ask for a place, and changes nothing.
#[test]
fn who_does_not_ask_gets_the_same_refusals() {
    let (mut asked, mut other) = (limiter(), limiter());
    let late = [event(7, -3.0), event(FRAMES as u32, -3.0)];
    for (position, samples, events) in [
        (0, 2 * FRAMES + 2, &late[..0]),
        (0, 2 * FRAMES, &late[..]),
        (u64::MAX, 2 * FRAMES, &late[..0]),
    ] {
        let mut audio = vec![0.5; samples];
        let due: Refusal = asked
            .process(position, &mut audio, events)
            .expect_err("refused");
        let seen = other.process_audio(position, &mut audio, events);
        assert_eq!(seen, Err(due));
        assert_eq!(audio, vec![0.5; samples]);
        assert_eq!(whole(&asked), whole(&other));
    }
    // neither has a trace of them
    let mut fresh = limiter();
    for limiter in [&mut other, &mut fresh] {
        let mut audio = noise::<f64>(0);
        assert_eq!(limiter.process_audio(0, &mut audio, &[]), Ok(()));
    }
    assert_eq!(whole(&other), whole(&fresh));
}
