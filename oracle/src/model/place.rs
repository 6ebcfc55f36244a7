//! Where a block's highest linked peak sat (document 02, Change 5), of the channels
//! that count (Change 7). All of the block is heard first and looked through
//! afterwards, frame, channel and phase one after the other.

use super::detector::{answer, phase, push, Sums, TAPS};
use super::setup::counts;
use crate::audio::Audio;
use crate::dsp::sanitize::finite_or_zero;

/// What is heard of a channel in a frame: the sanitized sample, its detector's
/// sums, and whether the channel counts.
#[derive(Clone, Copy, Debug, PartialEq)]
pub struct Heard {
    pub sample: f64,
    pub sums: Sums,
    pub counts: bool,
}

/// A frame, channel by channel.
pub type Frame = Vec<Heard>;

/// The first frame with the highest linked peak, counted in the block, with the
/// lowest channel that counts and whose sample is that high; or, where none is, the
/// lowest whose detector is, and that one's phase.
#[derive(Clone, Copy, Debug, PartialEq, Eq)]
pub enum Place {
    Nowhere,
    Sample {
        frame: usize,
        channel: usize,
    },
    Between {
        frame: usize,
        channel: usize,
        phase: usize,
    },
}

impl Heard {
    /// Whether the sample counts and is so high.
    pub fn has_sample(&self, peak: f64) -> bool {
        self.counts && self.sample.abs() == peak
    }

    /// Whether the detector's answer counts and is so high.
    pub fn has_answer(&self, peak: f64) -> bool {
        self.counts && answer(&self.sums) == peak
    }

    /// The sample's magnitude or the detector's answer, whichever is larger.
    pub fn height(&self) -> f64 {
        larger(self.sample.abs(), answer(&self.sums))
    }
}

impl Place {
    /// The words that tell it: its kind, frame, channel and phase.
    pub fn words(&self) -> [u64; 4] {
        match *self {
            Self::Nowhere => [0; 4],
            Self::Sample { frame, channel } => [1, frame as u64, channel as u64, 0],
            Self::Between {
                frame,
                channel,
                phase,
            } => [2, frame as u64, channel as u64, phase as u64],
        }
    }
}

/// A frame's samples, each pushed into its channel's part of the detector's
/// store, whether it counts or not.
pub fn hear(samples: &[f64], detector: &mut [f64], left_out: u32) -> Frame {
    let stores = detector.chunks_exact_mut(TAPS);
    let heard = |(channel, (&x, store)): (usize, (&f64, &mut [f64]))| Heard {
        sample: finite_or_zero(x),
        sums: push(store, x),
        counts: counts(left_out, channel),
    };
    samples.iter().zip(stores).enumerate().map(heard).collect()
}

/// All frames of planar audio, from what the detector's store holds before them.
pub fn block(audio: &Audio, detector: &[f64], left_out: u32) -> Vec<Frame> {
    let mut detector = detector.to_vec();
    let channels = detector.len() / TAPS;
    let frames = audio.len() / channels;
    let mut samples = vec![0.0; channels];
    let heard = |frame: usize| {
        for (channel, sample) in samples.iter_mut().enumerate() {
            *sample = audio.sample(channel * frames + frame);
        }
        hear(&samples, &mut detector, left_out)
    };
    (0..frames).map(heard).collect()
}

/// A frame's linked peak: the largest, over the channels that count, of the
/// sample's magnitude and the detector's answer; 0.0 where none counts.
pub fn linked(frame: &[Heard]) -> f64 {
    let counted = frame.iter().filter(|h| h.counts);
    counted.map(Heard::height).fold(0.0, larger)
}

/// The frames' linked peaks.
pub fn peaks(frames: &[Frame]) -> Vec<f64> {
    frames.iter().map(|frame| linked(frame)).collect()
}

/// The highest of them.
pub fn highest(peaks: &[f64]) -> f64 {
    peaks.iter().copied().fold(0.0, larger)
}

fn larger(p: f64, q: f64) -> f64 {
    if q > p {
        q
    } else {
        p
    }
}

/// Where the highest linked peak of the frames sat.
pub fn place(frames: &[Frame]) -> Place {
    let peaks = peaks(frames);
    let peak = highest(&peaks);
    if peak == 0.0 {
        return Place::Nowhere;
    }
    let first = peaks.iter().position(|&linked| linked == peak);
    let frame = first.expect("one of them is the highest");
    let heard = &frames[frame];
    if let Some(channel) = heard.iter().position(|h| h.has_sample(peak)) {
        return Place::Sample { frame, channel };
    }
    let lowest = heard.iter().position(|h| h.has_answer(peak));
    let channel = lowest.expect("a detector is as high where no sample is");
    let phase = phase(&heard[channel].sums).expect("a peak above 0.0");
    Place::Between {
        frame,
        channel,
        phase,
    }
}

#[cfg(test)]
mod tests {
    use super::*;

    const NAN: f64 = f64::NAN;
    const INF: f64 = f64::INFINITY;
    const QUIET: Heard = heard(0.0, [0.0; 4]);

    const fn heard(sample: f64, sums: Sums) -> Heard {
        let counts = true;
        Heard {
            sample,
            sums,
            counts,
        }
    }

    const fn left_out(heard: Heard) -> Heard {
        let counts = false;
        Heard { counts, ..heard }
    }

    fn on(frame: usize, channel: usize) -> Place {
        Place::Sample { frame, channel }
    }

    fn between(frame: usize, channel: usize, phase: usize) -> Place {
        Place::Between {
            frame,
            channel,
            phase,
        }
    }

    #[test]
    fn nothing_is_nowhere() {
        assert_eq!(place(&[]), Place::Nowhere);
        assert_eq!(place(&[vec![QUIET; 2], vec![QUIET; 2]]), Place::Nowhere);
        let zeros = heard(-0.0, [-0.0, NAN, 0.0, NAN]);
        assert_eq!(place(&[vec![zeros], vec![zeros]]), Place::Nowhere);
    }

    #[test]
    fn of_equal_frames_it_is_the_first() {
        let (sample, sums) = (heard(-0.5, [0.0; 4]), heard(0.1, [0.2, -0.5, 0.0, 0.0]));
        let frames = |list: &[Heard]| -> Vec<Frame> { list.iter().map(|&h| vec![h]).collect() };
        assert_eq!(place(&frames(&[QUIET, sample, QUIET, sample])), on(1, 0));
        assert_eq!(place(&frames(&[sums, sums])), between(0, 0, 1));
        // A later frame's sample does not come before an earlier one's sum.
        assert_eq!(place(&frames(&[QUIET, sums, sample])), between(1, 0, 1));
        assert_eq!(place(&frames(&[sample, sums])), on(0, 0));
        // A higher one does, however late.
        let higher = heard(0.0, [0.0, 0.0, 0.0, 0.500_000_1]);
        assert_eq!(place(&frames(&[sample, sums, higher])), between(2, 0, 3));
    }

    #[test]
    fn of_equal_channels_it_is_the_lowest() {
        let (sample, sums) = (heard(0.5, [0.1; 4]), heard(0.1, [0.0, 0.0, -0.5, 0.0]));
        assert_eq!(place(&[vec![QUIET, sample, sample]]), on(0, 1));
        assert_eq!(place(&[vec![QUIET, sums, sums]]), between(0, 1, 2));
    }

    #[test]
    fn a_sample_comes_before_a_sum_of_its_height() {
        let (sample, sums) = (heard(-0.5, [0.1; 4]), heard(0.1, [0.5, 0.0, 0.0, 0.0]));
        let both = heard(0.5, [0.0, 0.5, 0.0, 0.0]);
        assert_eq!(place(&[vec![sums, QUIET, sample]]), on(0, 2));
        assert_eq!(place(&[vec![sums, both]]), on(0, 1));
        assert_eq!(place(&[vec![both, sample]]), on(0, 0));
    }

    #[test]
    fn of_equal_phases_it_is_the_first() {
        let sums = heard(0.25, [0.25, -0.5, 0.5, -0.5]);
        assert_eq!(place(&[vec![QUIET, sums]]), between(0, 1, 1));
    }

    #[test]
    fn an_infinite_sum_is_higher_than_all_else() {
        let huge = heard(f64::MAX, [f64::MAX; 4]);
        let sums = heard(1.0, [NAN, f64::MAX, -INF, INF]);
        assert_eq!(
            place(&[vec![huge, huge], vec![huge, sums]]),
            between(1, 1, 2)
        );
        assert_eq!(place(&[vec![huge, huge]]), on(0, 0));
    }

    #[test]
    fn the_linked_peak_is_of_those_that_count() {
        let (low, high) = (heard(-0.25, [0.1; 4]), heard(0.5, [0.1, -0.75, 0.0, NAN]));
        let mid = heard(0.1, [0.0, 0.0, 0.3, 0.0]);
        for (frame, peak) in [
            (vec![low, high, mid], 0.75),
            (vec![low, left_out(high), mid], 0.3),
            (vec![low, left_out(high), left_out(mid)], 0.25),
            (vec![left_out(low), high, left_out(mid)], 0.75),
            (vec![left_out(low), left_out(high), left_out(mid)], 0.0),
            (vec![left_out(heard(1.0, [INF; 4])), QUIET], 0.0),
            (Vec::new(), 0.0),
        ] {
            assert_eq!(linked(&frame), peak, "{frame:?}");
        }
    }

    #[test]
    fn the_place_is_of_those_that_count() {
        let (sample, sums) = (heard(-0.5, [0.1; 4]), heard(0.1, [0.2, -0.5, 0.0, 0.0]));
        let higher = left_out(heard(0.9, [0.0, -1.0, 0.0, 0.0]));
        // Neither an earlier frame nor a lower channel, if it is left out.
        assert_eq!(place(&[vec![higher, QUIET], vec![QUIET, sample]]), on(1, 1));
        assert_eq!(place(&[vec![left_out(sample), QUIET, sample]]), on(0, 2));
        assert_eq!(
            place(&[vec![left_out(sums), higher, sums]]),
            between(0, 2, 1)
        );
        // A sample that is left out does not come before a sum.
        assert_eq!(place(&[vec![sums, left_out(sample)]]), between(0, 0, 1));
        assert_eq!(place(&[vec![sums, sample]]), on(0, 1));
        // All that counts is silent, or nothing counts.
        assert_eq!(
            place(&[vec![QUIET, higher], vec![higher, QUIET]]),
            Place::Nowhere
        );
        assert_eq!(place(&[vec![higher, left_out(sample)]]), Place::Nowhere);
    }

    /// Bit c is channel c; the detector of one that is left out hears it all the same.
    #[test]
    fn a_block_is_heard_whoever_counts() {
        let audio = Audio::of(&[0.75, 0.0, 0.5, 0.0, 0.25, 0.0]);
        let places = [0b000, 0b001, 0b010, 0b011, 0b101, 0b1111_1000];
        let places = places.map(|left_out| place(&block(&audio, &[0.0; 3 * TAPS], left_out)));
        assert_eq!(
            places,
            [on(0, 0), on(0, 1), on(0, 0), on(0, 2), on(0, 1), on(0, 0)]
        );
        for left_out in [0b111, 255, u32::MAX] {
            let frames = block(&audio, &[0.0; 3 * TAPS], left_out);
            assert_eq!(place(&frames), Place::Nowhere);
            let all = block(&audio, &[0.0; 3 * TAPS], 0);
            let sums =
                |frames: &[Frame]| frames.concat().iter().map(|h| h.sums).collect::<Vec<_>>();
            assert_eq!(sums(&frames), sums(&all));
        }
    }

    /// Twelve samples, as they are after the first push.
    fn twelve(places: &[(usize, f64)]) -> Vec<f64> {
        let mut store = vec![0.0; TAPS];
        places.iter().for_each(|&(at, x)| store[at] = x);
        store
    }

    fn of(samples: &[f64], detector: &[f64]) -> Place {
        place(&block(&Audio::of(samples), detector, 0))
    }

    #[test]
    fn a_block_is_heard_from_its_store_on() {
        assert_eq!(of(&[], &[0.0; TAPS]), Place::Nowhere);
        assert_eq!(of(&[0.0, -0.0], &[0.0; TAPS]), Place::Nowhere);
        assert_eq!(of(&[0.0, -0.5, 0.5], &[0.0; TAPS]), on(1, 0));
        // The largest taps are phase 3's sixth and phase 0's seventh, its mirror.
        let before = [twelve(&[]), twelve(&[(0, 0.25)])].concat();
        assert_eq!(of(&[0.0; 20], &before), between(4, 1, 3));
        // Two channels, planar: frames of the second are behind the first's.
        assert_eq!(of(&[0.0, 0.0, 0.0, 0.5], &[0.0; 2 * TAPS]), on(1, 1));
        assert_eq!(of(&[NAN, INF, 0.0, -INF], &[0.0; 2 * TAPS]), Place::Nowhere);
    }

    /// A NaN spoils every sum that it is in: the samples are left.
    #[test]
    fn a_nan_in_the_store_silences_its_channel() {
        let store = [twelve(&[(3, NAN), (4, 9.0)]), twelve(&[])].concat();
        assert_eq!(of(&[0.0, 0.0, 0.25, 0.0], &store), on(0, 1));
        assert_eq!(of(&[0.0; 4], &store), Place::Nowhere);
        // After nine pushes it is gone, and the 9.0 before it.
        let tail: Vec<Frame> = block(&Audio::of(&[0.5; 10]), &twelve(&[(3, NAN)]), 0);
        assert!(tail[7][0].sums.iter().all(|sum| sum.is_nan()));
        assert!(tail[8][0].sums.iter().all(|sum| sum.is_finite()));
    }

    /// The oldest sample meets the last tap, which is 0 in phase 3.
    #[test]
    fn an_infinity_in_the_store_is_the_first_infinite_phase() {
        let store = twelve(&[(10, -INF)]);
        let heard = &block(&Audio::of(&[1.0]), &store, 0)[0][0];
        assert!(heard.sums[3].is_nan());
        assert_eq!(heard.sums[..3], [INF; 3]);
        assert_eq!(of(&[1.0], &store), between(0, 0, 0));
        // The newer samples drive phase 0 to the other infinity first.
        let lag = |lag: usize, x: f64| (lag - 1, x);
        let store = twelve(&[lag(6, f64::MAX), lag(7, -f64::MAX), lag(11, INF)]);
        let heard = &block(&Audio::of(&[1.0]), &store, 0)[0][0];
        assert!(heard.sums[0].is_nan());
        assert_eq!(of(&[1.0], &store), between(0, 0, 1));
    }

    #[test]
    fn places_are_told_in_four_words() {
        assert_eq!(Place::Nowhere.words(), [0; 4]);
        assert_eq!(on(7, 3).words(), [1, 7, 3, 0]);
        assert_eq!(between(65_535, 7, 2).words(), [2, 65_535, 7, 2]);
    }
}
