//! Limits a second of a loud stereo tone, interleaved as a file would hold it, and
//! prints the highest sample, in and out, and where the peak of the last block sat: of
//! f64 samples, or of f32 where the first word is `float`.

use daggeryuzu::{Limiter, LimiterSettings, PeakPlace, ProcessSpec, Refusal, Sample};

const RATE: u32 = 48_000;
const BLOCK: usize = 480;

fn highest<T: Sample>(audio: &[T]) -> f64 {
    audio.iter().fold(0.0, |top, x| x.to_f64().abs().max(top))
}

fn told(place: PeakPlace) -> String {
    let seat = match place {
        PeakPlace::OnSample { .. } => "on a sample",
        PeakPlace::Between { .. } => "between samples",
    };
    format!(
        "{seat}, frame {:.3}, channel {}",
        place.at(),
        place.channel()
    )
}

fn limit<T: Sample>() -> Result<(), Refusal> {
    let spec = ProcessSpec {
        sample_rate: RATE,
        channels: 2,
        max_block: BLOCK,
        max_memory: None,
    };
    // both channels count; with 5.1, `.leave_out(3)` would leave the bass out
    let mut limiter = Limiter::prepare(LimiterSettings::default(), spec)?;
    let (mut top_in, mut top_out, mut place) = (0.0_f64, 0.0_f64, None);
    for at in (0..u64::from(RATE)).step_by(BLOCK) {
        let tone = |i: usize| {
            let t = (at + i as u64) as f64 / f64::from(RATE);
            (std::f64::consts::TAU * 997.0 * t).sin()
        };
        // left and right of a frame side by side, the right one at half the level
        let frames = (0..BLOCK).flat_map(|i| [2.0 * tone(i), tone(i)]);
        let mut audio: Vec<T> = frames.map(T::from_f64).collect();
        top_in = top_in.max(highest(&audio));
        limiter.deinterleave(&mut audio)?;
        place = limiter.process(at, &mut audio, &[])?;
        limiter.interleave(&mut audio)?;
        top_out = top_out.max(highest(&audio));
    }
    let name = std::any::type_name::<T>();
    println!("highest {name} sample in {top_in:.10}, out {top_out:.10}");
    if let Some(place) = place {
        println!("peak of the last block {}", told(place));
    }
    Ok(())
}

fn main() -> Result<(), Refusal> {
    match std::env::args().nth(1).as_deref() {
        Some("float") => limit::<f32>(),
        _ => limit::<f64>(),
    }
}
