//! Slices rearranged within themselves by the proved code, beside plain Rust that
//! goes through a second buffer.

use daggeryuzu::Refusal;

use crate::audio::blocks;
use crate::clock::timed;
use crate::measure::{same, Case, Effort, Measured};
use crate::sample_type::{Sample, SampleType};

/// From frame after frame to channel after channel, or back.
#[derive(Clone, Copy, Debug, PartialEq, Eq)]
pub enum Direction {
    /// To channel after channel.
    Deinterleave,
    /// Back.
    Interleave,
}

/// The proved code, through the wrapper: channels and the slice.
type Proved<T> = fn(usize, &mut [T]) -> Result<(), Refusal>;

/// Plain Rust: channels, the slice and a second buffer of its length.
type Plain<T> = fn(usize, &mut [T], &mut [T]);

/// Frames that a side rearranges before it is the other's turn, however many
/// slices that is: as many as the longest of them has, so that the rows differ in
/// nothing else.
const TURN: usize = 65_536;

/// So many times the audio of a round beside the Rust: a sample takes little.
const LONGER: f64 = 10.0;

/// Times a case, whose blocks are the slices: ns a sample.
pub fn measure(direction: Direction, case: &Case, effort: &Effort) -> Result<Measured, String> {
    match case.sample {
        SampleType::F64 => measure_as::<f64>(direction, case, effort),
        SampleType::F32 => measure_as::<f32>(direction, case, effort),
    }
}

/// Both sides of a direction.
fn measure_as<T: Sample>(
    direction: Direction,
    case: &Case,
    effort: &Effort,
) -> Result<Measured, String> {
    match direction {
        Direction::Deinterleave => {
            beside(daggeryuzu::deinterleave::<T>, deinterleave, case, effort)
        }
        Direction::Interleave => beside(daggeryuzu::interleave::<T>, interleave, case, effort),
    }
}

/// The two by turns, each with slices that were filled just before. The first round
/// warms both up and is not counted; every round ends with the slices compared.
fn beside<T: Sample>(
    proved: Proved<T>,
    plain: Plain<T>,
    case: &Case,
    effort: &Effort,
) -> Result<Measured, String> {
    let source: Vec<Vec<T>> = blocks(case.level, case.channels, case.block, TURN);
    let (mut ours, mut theirs) = (source.clone(), source.clone());
    let mut second = source[0].clone();
    let turns = turns(case, effort);
    let samples = (turns * source.len() * source[0].len()) as f64;
    let mut rounds = Vec::new();
    for round in 0..=effort.rounds {
        let (mut our_time, mut their_time) = (0.0, 0.0);
        for _ in 0..turns {
            ours.clone_from(&source);
            our_time += by_proved(proved, case.channels, &mut ours)?;
            theirs.clone_from(&source);
            their_time += by_plain(plain, case.channels, &mut theirs, &mut second);
        }
        if !same(&ours, &theirs) {
            return Err(format!("the slices differ in round {round} of {case:?}"));
        }
        if round > 0 {
            rounds.push((our_time / samples, their_time / samples));
        }
    }
    Ok(Measured::of(&rounds))
}

/// Turns of a round.
fn turns(case: &Case, effort: &Effort) -> usize {
    let frames = LONGER * effort.seconds * f64::from(case.rate);
    (frames as usize / TURN).max(1)
}

/// ns that the proved code takes.
fn by_proved<T: Sample>(
    proved: Proved<T>,
    channels: usize,
    slices: &mut [Vec<T>],
) -> Result<f64, String> {
    let mut seen = Ok(());
    let time = timed(|| {
        for slice in slices.iter_mut() {
            seen = seen.and(proved(channels, slice));
        }
    });
    match seen {
        Ok(()) => Ok(time),
        Err(why) => Err(format!("ours: refused by {}", why.number())),
    }
}

/// ns that plain Rust takes.
fn by_plain<T: Sample>(
    plain: Plain<T>,
    channels: usize,
    slices: &mut [Vec<T>],
    second: &mut [T],
) -> f64 {
    timed(|| {
        for slice in slices {
            plain(channels, slice, second);
        }
    })
}

/// Channel after channel.
fn deinterleave<T: Sample>(channels: usize, audio: &mut [T], second: &mut [T]) {
    let frames = audio.len() / channels;
    for (c, plane) in second.chunks_exact_mut(frames).enumerate() {
        for (sample, frame) in plane.iter_mut().zip(audio.chunks_exact(channels)) {
            *sample = frame[c];
        }
    }
    audio.copy_from_slice(second);
}

/// Frame after frame.
fn interleave<T: Sample>(channels: usize, audio: &mut [T], second: &mut [T]) {
    let frames = audio.len() / channels;
    for (c, plane) in audio.chunks_exact(frames).enumerate() {
        for (frame, sample) in second.chunks_exact_mut(channels).zip(plane) {
            frame[c] = *sample;
        }
    }
    audio.copy_from_slice(second);
}

#[cfg(test)]
mod tests {
    use super::*;

    const SHORT: Effort = Effort {
        seconds: 0.01,
        rounds: 2,
    };

    #[test]
    fn plain_rust_goes_there_and_back() {
        let (stereo, planes) = (
            [1.0, -1.0, 2.0, -2.0, 3.0, -3.0],
            [1.0, 2.0, 3.0, -1.0, -2.0, -3.0],
        );
        let (mut audio, mut second) = (stereo, [0.0; 6]);
        deinterleave(2, &mut audio, &mut second);
        assert_eq!(audio, planes);
        interleave(2, &mut audio, &mut second);
        assert_eq!(audio, stereo);
    }

    #[test]
    fn a_round_has_turns_by_its_seconds() {
        let of = |seconds| turns(&Case::default(), &Effort { seconds, ..SHORT });
        assert_eq!([0.01, 4.0].map(of), [1, 29]);
    }

    #[test]
    fn short_cases_are_measured_and_the_slices_are_the_same() {
        for direction in [Direction::Deinterleave, Direction::Interleave] {
            for sample in [SampleType::F64, SampleType::F32] {
                for (channels, block) in [(1, 4096), (2, 65_536), (3, 1000), (6, 65_536)] {
                    let case = Case {
                        sample,
                        channels,
                        block,
                        ..Case::default()
                    };
                    let seen = measure(direction, &case, &SHORT).expect("measured");
                    assert!(seen.ratio.low > 0.0 && seen.ratio.low <= seen.ratio.high);
                }
            }
        }
    }

    fn nothing(_channels: usize, _audio: &mut [f32]) -> Result<(), Refusal> {
        Ok(())
    }

    fn refuses(_channels: usize, audio: &mut [f32]) -> Result<(), Refusal> {
        daggeryuzu::interleave(0, audio)
    }

    #[test]
    fn other_work_is_an_error() {
        for (proved, said) in [
            (nothing as Proved<f32>, "the slices differ in round 0"),
            (refuses, "refused by 27"),
        ] {
            let line = beside(proved, interleave, &Case::default(), &SHORT);
            let line = line.expect_err("other work");
            assert!(line.contains(said), "{line}");
        }
    }
}
