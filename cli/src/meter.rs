//! Peaks of a stream, on the samples and between them: of each channel, and of those
//! together that count.

use daggeryuzu::Sample;

use crate::detector::Detector;
use crate::series::Series;

/// The highest peaks of a stream, as factors of full scale.
#[derive(Clone, Copy, Debug, Default, PartialEq)]
pub struct Peaks {
    /// On the samples.
    pub sample: f64,
    /// By the detector, between the samples too.
    pub detector: f64,
}

impl Peaks {
    /// The higher of the two.
    #[must_use]
    pub fn higher(self) -> f64 {
        self.sample.max(self.detector)
    }

    /// The highest of many; 0 of none.
    fn highest(many: impl Iterator<Item = Self>) -> Self {
        many.fold(Self::default(), Self::with)
    }

    /// The higher ones of both.
    fn with(self, other: Self) -> Self {
        Self {
            sample: self.sample.max(other.sample),
            detector: self.detector.max(other.detector),
        }
    }
}

/// One channel of a meter.
#[derive(Clone, Debug)]
struct Channel {
    counts: bool,
    detector: Detector,
    peaks: Peaks,
}

impl Channel {
    /// Takes one finite sample: how high it is.
    fn take(&mut self, x: f64) -> f64 {
        let now = Peaks {
            sample: x.abs(),
            detector: self.detector.push(x),
        };
        self.peaks = self.peaks.with(now);
        now.higher()
    }

    /// Ends it with silence.
    fn finish(self) -> Peaks {
        let tail = Peaks {
            sample: 0.0,
            detector: self.detector.finish(),
        };
        self.peaks.with(tail)
    }
}

/// A meter over all channels of a stream.
#[derive(Clone, Debug)]
pub struct Meter {
    channels: Vec<Channel>,
    envelope: Series,
    not_finite: u64,
}

impl Meter {
    /// A meter for these channels: whether each counts.
    #[must_use]
    pub fn new(counts: &[bool]) -> Self {
        let channel = |&counts: &bool| Channel {
            counts,
            detector: Detector::default(),
            peaks: Peaks::default(),
        };
        Self {
            channels: counts.iter().map(channel).collect(),
            envelope: Series::highest(),
            not_finite: 0,
        }
    }

    /// Takes interleaved samples: the highest peak in the channels that count, on a sample
    /// or by the detector. A sample that is not finite is silence, as the limiter takes it.
    pub fn take<T: Sample>(&mut self, samples: &[T]) -> f64 {
        let mut highest = 0.0_f64;
        for frame in samples.chunks_exact(self.channels.len()) {
            let mut linked = 0.0_f64;
            for (x, channel) in frame.iter().zip(&mut self.channels) {
                let x = x.to_f64();
                self.not_finite += u64::from(!x.is_finite());
                let peak = channel.take(if x.is_finite() { x } else { 0.0 });
                if channel.counts {
                    linked = linked.max(peak);
                }
            }
            self.envelope.push(linked);
            highest = highest.max(linked);
        }
        highest
    }

    /// Ends the stream with silence.
    #[must_use]
    pub fn finish(self) -> Measured {
        let counts: Vec<bool> = self.channels.iter().map(|c| c.counts).collect();
        let channels: Vec<Peaks> = self.channels.into_iter().map(Channel::finish).collect();
        let counted = channels.iter().zip(counts).filter(|(_, counts)| *counts);
        Measured {
            counted: Peaks::highest(counted.map(|(peaks, _)| *peaks)),
            all: Peaks::highest(channels.iter().copied()),
            channels,
            envelope: self.envelope,
            not_finite: self.not_finite,
        }
    }
}

/// What a meter came to.
#[derive(Clone, Debug)]
pub struct Measured {
    /// The highest peaks of the channels that count.
    pub counted: Peaks,
    /// Those of all channels, whether they count or not.
    pub all: Peaks,
    /// Those of each channel, whether it counts or not.
    pub channels: Vec<Peaks>,
    /// The higher of both peaks over time, in the channels that count.
    pub envelope: Series,
    /// Samples of any channel that were not finite.
    pub not_finite: u64,
}

#[cfg(test)]
mod tests {
    use super::*;

    #[test]
    fn channels_are_metered_apart_and_the_higher_counts() {
        let mut meter = Meter::new(&[true; 2]);
        assert_eq!(meter.take(&[0.5, -0.25, f64::NAN, 0.0]), 0.5);
        assert!(meter.take(&[0.0; 22]) < 0.5);
        assert_eq!(meter.take(&[0.0; 2]), 0.0);
        let seen = meter.finish();
        assert_eq!(seen.counted.sample, 0.5);
        assert_eq!(seen.all, seen.counted);
        assert_eq!(seen.not_finite, 1);
        assert_eq!(seen.envelope.frames(), 14);
        assert_eq!([0, 1].map(|c| seen.channels[c].sample), [0.5, 0.25]);
    }

    #[test]
    fn a_channel_that_does_not_count_has_peaks_of_its_own() {
        let mut meter = Meter::new(&[true, false]);
        assert_eq!(meter.take(&[0.25, -8.0, f64::NAN, f64::NAN]), 0.25);
        assert!(meter.take(&[0.0; 22]) < 0.5);
        let seen = meter.finish();
        assert_eq!((seen.counted, seen.not_finite), (seen.channels[0], 2));
        assert_eq!(seen.all, seen.channels[1]);
        assert_eq!([0, 1].map(|c| seen.channels[c].sample), [0.25, 8.0]);
        assert!(seen.channels[1].detector > 4.0);
        assert!(seen.envelope.points().all(|(_, peak)| peak < 0.5));
    }

    /// The end of a channel is heard, of its own peaks alone where it does not count.
    #[test]
    fn the_end_is_heard_apart() {
        let mut meter = Meter::new(&[false, true]);
        meter.take(&[1.0, 0.5]);
        let seen = meter.finish();
        assert!(seen.channels[0].detector > 0.9);
        assert!((0.45..0.5).contains(&seen.counted.detector));
        assert!(seen.all.detector > 0.9);
    }
}
