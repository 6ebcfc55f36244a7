//! The plain model: document 02's words, by way of a second buffer.

use super::{Call, Direction};

/// The most samples that a slice may have.
pub const LONGEST: usize = 524_288;

/// A call of the model: a side of the comparison.
pub fn call(call: &Call, audio: &mut [u8]) -> u32 {
    let number = judged(call, audio.len());
    if number == 0 {
        rearrange(call, audio);
    }
    number
}

/// The table: 27 first, then 28; 0 where the slice is rearranged.
fn judged(call: &Call, bytes: usize) -> u32 {
    if call.channels < 1 || call.channels > 8 {
        return 27;
    }
    let (samples, rest) = (bytes / call.format.size(), bytes % call.format.size());
    if samples > LONGEST || samples % call.channels != 0 || rest != 0 {
        return 28;
    }
    0
}

/// Each sample's bytes to its place.
fn rearrange(call: &Call, audio: &mut [u8]) {
    let (size, channels) = (call.format.size(), call.channels);
    let frames = audio.len() / size / channels;
    let before = audio.to_vec();
    for frame in 0..frames {
        for channel in 0..channels {
            let interleaved = frame * channels + channel;
            let planar = channel * frames + frame;
            let (from, to) = match call.direction {
                Direction::Deinterleave => (interleaved, planar),
                Direction::Interleave => (planar, interleaved),
            };
            audio[to * size..][..size].copy_from_slice(&before[from * size..][..size]);
        }
    }
}
