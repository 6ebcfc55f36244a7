//! Rounds of both limiters by turns, and what they come to.

use crate::audio::{blocks, Level};
use crate::machines::{Ours, Setup, Theirs};
use crate::sample_type::{Sample, SampleType};
use crate::setups::Way;

/// How much is measured.
#[derive(Clone, Copy, Debug, PartialEq)]
pub struct Effort {
    /// Seconds of audio a round.
    pub seconds: f64,
    /// Rounds.
    pub rounds: usize,
}

/// What is measured.
#[derive(Clone, Copy, Debug)]
pub struct Case {
    /// Loud or quiet.
    pub level: Level,
    /// What a sample is.
    pub sample: SampleType,
    /// Frames a second.
    pub rate: u32,
    /// Frames that the limiter looks ahead.
    pub look: usize,
    /// Channels.
    pub channels: usize,
    /// So many of the last ones do not count in ours. The Rust, which counts all, is fed
    /// silence there: the gain is the same.
    pub left_out: usize,
    /// Frames in a block.
    pub block: usize,
    /// Whether a block is asked where its highest peak sat, which the Rust does not tell.
    pub asked: bool,
    /// How ours is set up.
    pub way: Way,
}

impl Default for Case {
    fn default() -> Self {
        Self {
            level: Level::Loud,
            sample: SampleType::F64,
            rate: 48_000,
            look: 72,
            channels: 2,
            left_out: 0,
            block: 512,
            asked: false,
            way: Way::Wrapper,
        }
    }
}

impl Case {
    /// The lookahead that comes to `look` frames.
    pub fn lookahead_ms(&self) -> f64 {
        self.look as f64 / (f64::from(self.rate) / 1000.0)
    }

    /// What the limiters are set up with.
    pub fn setup(&self) -> Setup {
        Setup {
            rate: self.rate,
            lookahead_ms: self.lookahead_ms(),
            channels: self.channels,
            left_out: self.left_out,
            block: self.block,
        }
    }

    /// Samples of a block in the channels that count, which come first.
    fn counted(&self) -> usize {
        (self.channels - self.left_out) * self.block
    }
}

/// The median with the lowest and the highest.
#[derive(Clone, Copy, Debug, PartialEq)]
pub struct Spread {
    /// The lowest.
    pub low: f64,
    /// The one in the middle.
    pub median: f64,
    /// The highest.
    pub high: f64,
}

impl Spread {
    fn of(mut values: Vec<f64>) -> Self {
        values.sort_by(f64::total_cmp);
        Self {
            low: values[0],
            median: values[values.len() / 2],
            high: values[values.len() - 1],
        }
    }
}

/// What the rounds come to.
#[derive(Clone, Copy, Debug)]
pub struct Measured {
    /// ns a frame, the proved limiter; ns a sample, the proved rearrangement; ns a setup.
    pub ours: Spread,
    /// The same of the Rust, FFmpeg or plain Rust.
    pub theirs: Spread,
    /// Ours over theirs, round by round.
    pub ratio: Spread,
}

impl Measured {
    /// From the ns of both, ours first, round by round.
    pub fn of(rounds: &[(f64, f64)]) -> Self {
        let spread = |f: fn(&(f64, f64)) -> f64| Spread::of(rounds.iter().map(f).collect());
        Self {
            ours: spread(|r| r.0),
            theirs: spread(|r| r.1),
            ratio: spread(|r| r.0 / r.1),
        }
    }
}

/// Frames that one limiter takes before it is the other's turn.
const TURN: usize = 4096;

/// Blocks of so many frames that make a turn.
pub fn turn(block: usize) -> usize {
    (TURN / block).max(1)
}

/// Times a case.
pub fn measure(case: &Case, effort: &Effort) -> Result<Measured, String> {
    match case.sample {
        SampleType::F64 => measure_as::<f64>(case, effort),
        SampleType::F32 => measure_as::<f32>(case, effort),
    }
}

/// Times a case of one sample type. The first round warms both up and is not
/// counted; every round starts with buffers that are filled, and ends with the
/// outputs compared, those of the channels that count.
fn measure_as<T: Sample>(case: &Case, effort: &Effort) -> Result<Measured, String> {
    let setup = case.setup();
    let source: Vec<Vec<T>> = blocks(case.level, case.channels, case.block, frames(case, effort));
    let silenced = silenced(&source, case.counted());
    let frames = (source.len() * case.block) as f64;
    let (mut ours, mut theirs) = (Ours::new(&setup)?, Theirs::new(&setup)?);
    let mut rounds = Vec::new();
    for round in 0..=effort.rounds {
        let (mut a, mut b) = (source.clone(), silenced.clone());
        let (mut our_time, mut their_time) = (0.0, 0.0);
        // By turns within a round, so that what disturbs one disturbs both.
        let turn = turn(case.block);
        for (x, y) in a.chunks_mut(turn).zip(b.chunks_mut(turn)) {
            our_time += ours.run(x, case.channels, case.asked)?;
            their_time += theirs.run(y, case.channels);
        }
        if !same(&counted(a, case), &counted(b, case)) {
            return Err(format!("the outputs differ in round {round} of {case:?}"));
        }
        if round > 0 {
            rounds.push((our_time / frames, their_time / frames));
        }
    }
    Ok(Measured::of(&rounds))
}

/// Blocks with silence from the sample `counted` on.
fn silenced<T: Sample>(blocks: &[Vec<T>], counted: usize) -> Vec<Vec<T>> {
    let mut silenced = blocks.to_vec();
    for block in &mut silenced {
        block[counted..].fill(T::of_bits(0));
    }
    silenced
}

/// Blocks cut to the channels that count.
fn counted<T: Sample>(mut blocks: Vec<Vec<T>>, case: &Case) -> Vec<Vec<T>> {
    for block in &mut blocks {
        block.truncate(case.counted());
    }
    blocks
}

/// Frames of a round. A long attack row costs much a frame while the gain moves:
/// fewer frames do then.
fn frames(case: &Case, effort: &Effort) -> usize {
    let share = match case.level {
        Level::Loud => (300.0 / case.look as f64).min(1.0),
        Level::Quiet => 1.0,
    };
    (effort.seconds * share * f64::from(case.rate)) as usize
}

/// Bit for bit.
pub fn same<T: Sample>(a: &[Vec<T>], b: &[Vec<T>]) -> bool {
    let (a, b) = (a.iter().flatten(), b.iter().flatten());
    a.zip(b).all(|(x, y)| x.bits() == y.bits())
}

#[cfg(test)]
mod tests {
    use super::*;

    #[test]
    fn a_spread_is_sorted() {
        let spread = Spread::of(vec![3.0, 1.0, 2.0]);
        let expected = Spread {
            low: 1.0,
            median: 2.0,
            high: 3.0,
        };
        assert_eq!(spread, expected);
    }

    #[test]
    fn the_ratio_is_taken_round_by_round() {
        let seen = Measured::of(&[(1.0, 2.0), (9.0, 3.0), (4.0, 4.0)]);
        assert_eq!((seen.ours.median, seen.theirs.median), (4.0, 3.0));
        assert_eq!((seen.ratio.low, seen.ratio.median), (0.5, 1.0));
        assert_eq!(seen.ratio.high, 3.0);
    }

    #[test]
    fn a_long_look_has_fewer_frames_where_it_costs_more() {
        let effort = Effort {
            seconds: 2.0,
            rounds: 1,
        };
        let of = |level, look| {
            let usual = Case::default();
            let case = Case {
                level,
                look,
                ..usual
            };
            frames(&case, &effort)
        };
        assert_eq!(of(Level::Loud, 72), 96_000);
        assert_eq!(of(Level::Loud, 3000), 9_600);
        assert_eq!(of(Level::Quiet, 3000), 96_000);
    }

    #[test]
    fn a_turn_has_a_block_at_least() {
        assert_eq!([1, 512, 65_536].map(turn), [4096, 8, 1]);
    }

    /// The Rust beside silence where ours leaves channels out.
    #[test]
    fn with_channels_left_out_the_others_are_the_same() {
        let effort = Effort {
            seconds: 0.05,
            rounds: 1,
        };
        for sample in [SampleType::F64, SampleType::F32] {
            for left_out in [0, 1, 5] {
                let case = Case {
                    sample,
                    channels: 6,
                    left_out,
                    ..Case::default()
                };
                let (settings, _) = case.setup().of_ours();
                assert_eq!(settings.left_out().count_ones() as usize, left_out);
                assert_eq!(settings.counts[5], left_out == 0);
                measure(&case, &effort).expect("measured");
            }
        }
    }

    #[test]
    fn what_is_left_out_is_silenced_and_not_compared() {
        let case = Case {
            channels: 3,
            left_out: 1,
            block: 2,
            ..Case::default()
        };
        let blocks = vec![vec![1.0, 2.0, 3.0, 4.0, 5.0, 6.0]];
        let silenced = silenced(&blocks, case.counted());
        assert_eq!(silenced, [[1.0, 2.0, 3.0, 4.0, 0.0, 0.0]]);
        assert_eq!(counted(blocks, &case), [[1.0, 2.0, 3.0, 4.0]]);
    }

    #[test]
    fn one_bit_makes_a_difference() {
        assert!(same(&[vec![0.5_f32, 0.0]], &[vec![0.5, 0.0]]));
        assert!(!same(&[vec![0.5_f32, 0.0]], &[vec![0.5, -0.0]]));
        assert!(!same(&[vec![0.5]], &[vec![0.5_f64.next_up()]]));
    }

    #[test]
    fn a_short_case_is_measured_and_its_outputs_are_the_same() {
        let effort = Effort {
            seconds: 0.05,
            rounds: 2,
        };
        for sample in [SampleType::F64, SampleType::F32] {
            for level in [Level::Loud, Level::Quiet] {
                let case = Case {
                    level,
                    sample,
                    ..Case::default()
                };
                let seen = measure(&case, &effort).expect("measured");
                assert!(seen.ratio.low > 0.0 && seen.ratio.low <= seen.ratio.high);
            }
        }
    }
}
