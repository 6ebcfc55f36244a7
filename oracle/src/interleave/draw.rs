//! Which slices are lent: the ends of every rule first, then random ones.

use super::model::LONGEST;
use super::play::ALIGNED;
use super::{Call, Direction, Slice};
use crate::audio::Format;
use crate::rng::Rng;

const DIRECTIONS: [Direction; 2] = [Direction::Deinterleave, Direction::Interleave];
const FORMATS: [Format; 2] = [Format::F64, Format::F32];

/// The largest block, in frames.
const BLOCK: usize = 65_536;

/// The proved code goes in steps of so many frames.
const STEP: usize = 64;

/// Few frames, whole steps with their neighbours, and the largest block.
const FRAMES: [usize; 34] = [
    0, 1, 2, 3, 5, 8, 31, 32, 33, 62, 63, 64, 65, 66, 127, 128, 129, 130, 191, 192, 193, 255, 256,
    257, 1023, 1024, 1025, 4095, 4096, 4097, 65_472, 65_473, 65_535, 65_536,
];

/// Channels that are refused: beside the range, in it if high bits were cut off,
/// and such that their product with a sample's bytes is past 64 bits.
const NO_CHANNELS: [usize; 18] = [
    0,
    9,
    10,
    16,
    64,
    255,
    256,
    257,
    LONGEST,
    1 << 16 | 2,
    1 << 32,
    1 << 32 | 2,
    1 << 61,
    1 << 62 | 1,
    1 << 63,
    1 << 63 | 8,
    usize::MAX - 1,
    usize::MAX,
];

/// Every end, of both directions and both sample types: the call and the bytes.
pub fn ends() -> Vec<(Call, usize)> {
    let mut ends = Vec::new();
    for direction in DIRECTIONS {
        for format in FORMATS {
            let with = |channels| Call {
                direction,
                format,
                channels,
            };
            for call in (1..=8).map(with) {
                ends.extend(lengths(&call).into_iter().map(|bytes| (call, bytes)));
            }
            for call in NO_CHANNELS.map(with) {
                let samples = [0, 1, 2, 8, 840, LONGEST, LONGEST + 1];
                let bytes = samples.map(|n| n * format.size());
                ends.extend(bytes.map(|bytes| (call, bytes)));
                ends.push((call, 5));
            }
        }
    }
    ends
}

/// A call's lengths at the ends of its rules, in bytes.
fn lengths(call: &Call) -> Vec<usize> {
    let (size, channels) = (call.format.size(), call.channels);
    let (frame, most) = (size * channels, LONGEST / channels * channels);
    let mut samples: Vec<usize> = FRAMES.iter().map(|frames| frames * channels).collect();
    // About the longest, by frames and by samples; no whole frames.
    samples.extend([most, most + channels, LONGEST, LONGEST + 1]);
    samples.extend([channels - 1, channels + 1, 65 * channels - 1]);
    let mut bytes: Vec<usize> = samples.iter().map(|n| n * size).collect();
    // No whole samples.
    bytes.extend([1, size - 1, size + 1, frame - 1, frame + 1]);
    bytes.extend([most * size - 1, most * size + 1, LONGEST * size + 1]);
    bytes
}

/// Slice `number` of a run, whatever was played before it.
pub fn slice(seed: u64, number: u64, ends: &[(Call, usize)]) -> Slice {
    let mut start = Rng::new(seed ^ number.rotate_left(32));
    let mut rng = Rng::new(start.word());
    let end = ends.get(number as usize).copied();
    let (call, bytes) = end.unwrap_or_else(|| drawn(&mut rng));
    Slice {
        call,
        bytes,
        offset: rng.below(2) as usize * rng.below(ALIGNED as u64) as usize,
        seed: rng.word(),
        nans: rng.below(4) == 0,
    }
}

/// Any call and a length, one in six or so to be refused.
fn drawn(rng: &mut Rng) -> (Call, usize) {
    let call = Call {
        direction: rng.pick(&DIRECTIONS),
        format: rng.pick(&FORMATS),
        channels: 1 + rng.below(8) as usize,
    };
    let (size, channels) = (call.format.size(), call.channels);
    let bytes = size * channels * frames(channels, rng);
    let more = |n: usize, rng: &mut Rng| 1 + rng.below(n as u64) as usize;
    match rng.below(256) {
        0..=15 => {
            let channels = no_channels(rng);
            (Call { channels, ..call }, bytes)
        }
        16..=31 => (call, bytes + size * more(channels, rng)),
        32..=46 => (call, bytes + more(size - 1, rng)),
        // Long slices take their time, so they are rare.
        47 => (call, size * (LONGEST + more(3 * channels, rng))),
        _ => (call, bytes),
    }
}

fn no_channels(rng: &mut Rng) -> usize {
    match rng.below(3) {
        0 => 9 + rng.below(248) as usize,
        1 => (rng.word() as usize).max(9),
        _ => rng.pick(&NO_CHANNELS),
    }
}

/// Frames: mostly few, whole steps and their neighbours, all sizes up to the
/// largest block, and rarely up to what a slice may have.
fn frames(channels: usize, rng: &mut Rng) -> usize {
    let mut below = |n: usize| rng.below(n as u64) as usize;
    match below(512) {
        0..=191 => below(17),
        192..=351 => STEP * (1 + below(16)) - 1 + below(3),
        352..=479 => {
            let digits = below(17);
            below(1 << digits)
        }
        480..=505 => below(64 * STEP),
        506..=510 => STEP * (1 + below(BLOCK / STEP)) - below(3),
        _ => below(LONGEST / channels + 1),
    }
}
