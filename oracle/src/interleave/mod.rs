//! Slices rearranged within themselves, from frame after frame to channel after
//! channel and back: the proved code behind its C functions beside a plain model
//! of document 02.

mod draw;
mod model;
mod play;
mod report;
#[cfg(test)]
mod tests;

use crate::audio::Format;
use play::{play, Counts};

/// What a run depends on.
#[derive(Clone, Copy, Debug, PartialEq, Eq)]
pub struct Settings {
    pub slices: u64,
    pub seed: u64,
}

/// To channel after channel, or back.
#[derive(Clone, Copy, Debug, PartialEq, Eq)]
pub enum Direction {
    Deinterleave,
    Interleave,
}

impl Direction {
    fn inverse(self) -> Self {
        match self {
            Self::Deinterleave => Self::Interleave,
            Self::Interleave => Self::Deinterleave,
        }
    }
}

/// What is asked of a slice.
#[derive(Clone, Copy, Debug, PartialEq, Eq)]
pub struct Call {
    pub direction: Direction,
    pub format: Format,
    pub channels: usize,
}

/// A side of the comparison: it rearranges the slice and answers a number of the
/// table.
pub type Side = fn(&Call, &mut [u8]) -> u32;

/// A slice and what is asked of it.
#[derive(Clone, Copy, Debug, PartialEq, Eq)]
struct Slice {
    call: Call,
    /// Its length.
    bytes: usize,
    /// Bytes by which its start is past an address that suits every sample.
    offset: usize,
    /// What it holds comes from this.
    seed: u64,
    /// Whether every sample is a NaN, of any payload.
    nans: bool,
}

/// Play the slices; answers whether all was the same, and the lines about it.
pub fn run(settings: &Settings, side: Side) -> (bool, String) {
    let ends = draw::ends();
    let mut counts = Counts::default();
    for number in 0..settings.slices {
        let slice = draw::slice(settings.seed, number, &ends);
        match play(&slice, side) {
            Ok(answered) => counts.add(&slice, answered),
            Err(_) => return (false, report::differs(settings.seed, number, slice, side)),
        }
    }
    (true, report::passed(&counts, settings.seed))
}
