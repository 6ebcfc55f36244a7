//! Where a block's highest peak sat.

use crate::sys::{ANSWER, PEAK_BETWEEN, PEAK_ON_SAMPLE};

/// Where the highest peak of a block sat.
///
/// A frame's peak is the largest, over the channels that count, of the sample's magnitude
/// (0.0 where it is not finite) and the detector's answer. The place is in the first frame
/// whose peak is the block's highest. A channel that is left out is never told.
///
/// ```
/// use daggeryuzu::{Limiter, LimiterSettings, PeakPlace, ProcessSpec};
///
/// let spec = ProcessSpec { sample_rate: 48_000, channels: 2, max_block: 512, max_memory: None };
/// let mut limiter = Limiter::prepare(LimiterSettings::default(), spec)?;
/// let mut audio = vec![0.0; 2 * 512];
/// audio[512 + 100] = -0.5; // frame 100 of the second channel
/// let place = limiter.process(0, &mut audio, &[])?;
/// assert_eq!(place, Some(PeakPlace::OnSample { frame: 100, channel: 1 }));
/// # Ok::<(), daggeryuzu::Refusal>(())
/// ```
#[derive(Clone, Copy, Debug, PartialEq, Eq)]
pub enum PeakPlace {
    /// A sample is that high.
    OnSample {
        /// Its frame, counted from 0 in the block.
        frame: usize,
        /// The lowest channel, counted from 0, whose sample there is that high.
        channel: usize,
    },
    /// The signal between two samples is that high, and no sample of the frame.
    Between {
        /// The frame, counted from 0 in the block, in which the detector heard it:
        /// [`PeakPlace::at`] says when it was.
        frame: usize,
        /// The lowest channel, counted from 0, whose detector answered that there.
        channel: usize,
        /// The first of that detector's phases, 0 to 3, that is that high.
        phase: usize,
    },
}

/// The frames by which the detector hears its phase 0 late.
const LATE: f64 = 5.875;

impl PeakPlace {
    /// What a finished block told: none where it had no frames, no channel that counts, or
    /// no peak above 0.0.
    pub(crate) fn told(words: [u64; ANSWER]) -> Option<Self> {
        let (frame, channel, phase) = (words[1] as usize, words[2] as usize, words[3] as usize);
        match words[0] {
            PEAK_ON_SAMPLE => Some(Self::OnSample { frame, channel }),
            PEAK_BETWEEN => Some(Self::Between {
                frame,
                channel,
                phase,
            }),
            _ => None,
        }
    }

    /// The frame of the block in which the peak was heard; on a sample, its own.
    #[must_use]
    pub fn frame(self) -> usize {
        match self {
            Self::OnSample { frame, .. } | Self::Between { frame, .. } => frame,
        }
    }

    /// The channel, counted from 0.
    #[must_use]
    pub fn channel(self) -> usize {
        match self {
            Self::OnSample { channel, .. } | Self::Between { channel, .. } => channel,
        }
    }

    /// When the peak was, in frames from the block's start: a sample's own frame, or
    /// `frame - 5.875 + phase / 4`, which is 1/8, 3/8, 5/8 or 7/8 after the older of the
    /// two samples around it. Below 0 it lies in what came before the block.
    #[must_use]
    pub fn at(self) -> f64 {
        match self {
            Self::OnSample { frame, .. } => frame as f64,
            Self::Between { frame, phase, .. } => frame as f64 - LATE + phase as f64 / 4.0,
        }
    }
}
