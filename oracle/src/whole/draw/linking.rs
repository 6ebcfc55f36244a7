//! Which channels sessions leave out of the linked peak.

use super::Streams;
use crate::model::setup::{counts, Setup, CHANNELS};
use crate::rng::Rng;
use crate::whole::aims::Aim;
use crate::whole::plan::{Block, Part, Turn};

/// The choices that there are.
const CHOICES: u64 = 1 << CHANNELS;

/// What a session leaves out at first: two of four in turn nothing, the other two
/// the next choices, so that 512 sessions in a row meet them all. The seed says
/// where that starts, and an odd step brings choices side by side that have little
/// in common.
pub fn of_session(seed: u64, number: u64) -> u32 {
    if (number / 2).is_multiple_of(2) {
        return 0;
    }
    let turn = number / 4 * 2 + number % 2;
    let first = Rng::new(seed).word();
    (first.wrapping_add(turn.wrapping_mul(93)) % CHOICES) as u32
}

impl Streams {
    /// The setup with what the session leaves out; one time in four it has every
    /// channel that a bit may leave out.
    pub fn linked(&mut self, setup: Setup) -> Setup {
        let every = self.linking.below(4) == 0 && self.left_out != 0;
        Setup {
            left_out: meaningless(self.left_out, &mut self.linking),
            channels: if every { CHANNELS } else { setup.channels },
            ..setup
        }
    }
}

/// Bits that mean nothing, above the others, one time in four.
fn meaningless(left_out: u32, rng: &mut Rng) -> u32 {
    let bits = (rng.word() as u32) << CHANNELS;
    match rng.below(4) {
        0 => left_out | bits,
        _ => left_out,
    }
}

/// What a later setup leaves out: half of the time what the session did at first,
/// else nothing or any choice.
fn another(first: u32, rng: &mut Rng) -> u32 {
    let any = rng.below(CHOICES) as u32;
    let left_out = rng.pick(&[first, first, 0, any]);
    meaningless(left_out, rng)
}

/// The turns, each setup among them with a choice of its own, and in half of the
/// blocks the channels left out the louder ones.
pub fn with_choices(mut turns: Vec<Turn>, setup: &Setup, rng: &mut Rng) -> Vec<Turn> {
    let mut now = setup.left_out;
    for turn in &mut turns {
        let commits = turn.commits();
        match &mut turn.part {
            Part::Restart { left_out } => {
                *left_out = another(setup.left_out, rng);
                now = if commits { *left_out } else { now };
            }
            Part::Setup { setup: other, .. } => other.left_out = another(setup.left_out, rng),
            Part::Block(block) if rng.below(2) == 0 => hush(block, now, rng),
            _ => {}
        }
    }
    turns
}

/// Make the channels of a block that count quieter, where another one does not.
fn hush(block: &mut Block, left_out: u32, rng: &mut Rng) {
    let times = 1 + rng.below(20) as u32;
    let mut channels = 0..block.kinds.len();
    if channels.any(|channel| !counts(left_out, channel)) {
        block.aims.push(Aim::Hush { left_out, times });
    }
}
