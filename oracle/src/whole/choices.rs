//! Channels that are left out of the linked peak, counted: the choices that frames
//! were played with, and how often they mattered.

use std::collections::BTreeSet;

use crate::model::place::{linked, Frame};
use crate::model::setup::{counts, Setup, CHANNELS};

/// What was played with which choices.
#[derive(Clone, Debug, Default, PartialEq, Eq)]
pub struct Choices {
    /// The channels, and the bits that a state keeps.
    met: BTreeSet<(usize, u32)>,
    /// Sessions with a channel left out, if only for a while.
    pub sessions: u64,
    /// Frames with a channel left out, and those of them with no other one.
    pub frames: u64,
    pub none: u64,
    /// Frames of blocks in which a channel left out was higher than the linked peak.
    pub louder: u64,
}

impl Choices {
    /// So many frames more of one session, by a limiter that was set up so.
    pub fn take(&mut self, setup: &Setup, frames: u64, louder: u64) {
        self.met.insert((setup.channels, setup.left_out));
        let left_out = |channel: &usize| !counts(setup.left_out, *channel);
        let number = (0..setup.channels).filter(left_out).count();
        if number > 0 {
            self.sessions = 1;
            self.frames += frames;
            self.louder += louder;
        }
        if number == setup.channels {
            self.none += frames;
        }
    }

    /// What other sessions had.
    pub fn add(&mut self, other: &Self) {
        self.met.extend(&other.met);
        self.sessions += other.sessions;
        self.frames += other.frames;
        self.none += other.none;
        self.louder += other.louder;
    }

    /// The choices that were met, and those that differ in channels that there are.
    pub fn met(&self) -> [usize; 2] {
        let own = |&(channels, left_out): &(usize, u32)| left_out & ((1 << channels) - 1);
        let choices: BTreeSet<u32> = self.met.iter().map(|met| met.1).collect();
        let owned: BTreeSet<_> = self.met.iter().map(|met| (met.0, own(met))).collect();
        [choices.len(), owned.len()]
    }

    pub fn line(&self) -> String {
        let [choices, owned] = self.met();
        let Self {
            sessions,
            frames,
            none,
            louder,
            ..
        } = self;
        format!(
            "channels left out: {choices} of {ALL} choices, {owned} of the {OWNED} that 1 to 8 channels have; \
             {sessions} sessions and {frames} frames with one, {none} frames with none that counts, \
             {louder} frames of blocks with a louder one left out\n"
        )
    }
}

/// The choices that there are, and those of 1 to 8 channels: 2 + 4 + .. + 256.
const ALL: usize = 1 << CHANNELS;
const OWNED: usize = 2 * ALL - 2;

/// The frames in which a channel that does not count is higher than the linked peak.
pub fn louder(frames: &[Frame]) -> u64 {
    let louder = |frame: &&Frame| {
        let peak = linked(frame);
        frame.iter().any(|h| !h.counts && h.height() > peak)
    };
    frames.iter().filter(louder).count() as u64
}

#[cfg(test)]
mod tests {
    use super::*;
    use crate::model::place::Heard;
    use crate::model::state::State;

    fn setup(channels: usize, left_out: u32) -> Setup {
        Setup {
            channels,
            left_out,
            ..State::NEVER.setup
        }
    }

    /// Channels that there are not leave nothing out.
    #[test]
    fn frames_are_counted_by_the_channels_that_there_are() {
        let mut choices = Choices::default();
        for (channels, left_out, frames) in [
            (2, 0b00, 1),
            (2, 0b100, 10),
            (2, 0b10, 100),
            (2, 0b11, 1_000),
            (2, 0b1000_0011, 10_000),
            (8, 0b0111_1111, 100_000),
        ] {
            choices.take(&setup(channels, left_out), frames, frames / 2);
        }
        // The bits past two channels are the same two choices again.
        assert_eq!(choices.met(), [6, 4]);
        assert_eq!((choices.frames, choices.none), (111_100, 11_000));
        assert_eq!((choices.sessions, choices.louder), (1, 55_550));
        let mut sum = choices.clone();
        sum.add(&choices);
        let line = "channels left out: 6 of 256 choices, 4 of the 510 that 1 to 8 channels have; \
                    2 sessions and 222200 frames with one, 22000 frames with none that counts, \
                    111100 frames of blocks with a louder one left out\n";
        assert_eq!(sum.line(), line);
    }

    #[test]
    fn a_louder_one_is_higher_than_all_that_count() {
        let heard = |sample, sum, counts| Heard {
            sample,
            sums: [0.0, sum, 0.0, 0.0],
            counts,
        };
        let (low, high) = (heard(0.25, 0.1, true), heard(0.1, -0.5, true));
        for (frame, due) in [
            (vec![low, high], 0),
            (vec![low, heard(0.1, -0.5, false)], 1),
            (vec![low, heard(-0.25, 0.1, false)], 0),
            (vec![heard(0.5, 0.5, false), high], 0),
            (vec![heard(5e-324, 0.0, false)], 1),
            (vec![heard(0.0, -0.0, false)], 0),
        ] {
            assert_eq!(louder(std::slice::from_ref(&frame)), due, "{frame:?}");
        }
    }
}
