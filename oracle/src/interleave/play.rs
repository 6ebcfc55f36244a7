//! Plays a slice: lent among bytes that are no part of it, rearranged beside the
//! model, and rearranged back.

use std::ops::Range;

use super::{model, Call, Side, Slice};
use crate::audio::{Audio, Format};
use crate::calls::audio_differs;
use crate::rng::rubbish;

/// Bytes before and behind a slice, which no call may touch: as many as 64 frames
/// of 8 channels have, so that a whole step too many is seen.
const GUARD: usize = 64 * 8 * 8;

/// Every sample may start at a multiple of this.
pub const ALIGNED: usize = 16;

/// What was played.
#[derive(Clone, Debug, Default, PartialEq, Eq)]
pub struct Counts {
    pub slices: u64,
    /// Samples that went there and back, of f64 and of f32.
    pub samples: [u64; 2],
    /// Slices refused by 27 and by 28.
    pub refused: [u64; 2],
}

impl Counts {
    /// One more slice, answered by this number.
    pub fn add(&mut self, slice: &Slice, number: u32) {
        self.slices += 1;
        let samples = (slice.bytes / slice.call.format.size()) as u64;
        match (number, slice.call.format) {
            (0, Format::F64) => self.samples[0] += samples,
            (0, Format::F32) => self.samples[1] += samples,
            (27, _) => self.refused[0] += 1,
            _ => self.refused[1] += 1,
        }
    }
}

/// A slice among its guards. A clone lies elsewhere, at any address.
#[derive(Clone)]
pub struct Lent {
    pub bytes: Vec<u8>,
    pub place: Range<usize>,
}

impl Lent {
    /// Every byte filled, and the slice at an address such as it asks for.
    pub fn new(slice: &Slice) -> Self {
        let length = GUARD + ALIGNED + slice.offset + slice.bytes + GUARD;
        let mut bytes = rubbish(length, slice.seed);
        let start = GUARD + bytes[GUARD..].as_ptr().align_offset(ALIGNED) + slice.offset;
        let place = start..start + slice.bytes;
        if slice.nans {
            let samples = bytes[place.clone()].chunks_exact_mut(slice.call.format.size());
            samples.for_each(set_exponent);
        }
        Self { bytes, place }
    }

    fn by(&mut self, side: Side, call: &Call) -> u32 {
        side(call, &mut self.bytes[self.place.clone()])
    }

    fn audio(&self, format: Format) -> Audio {
        Audio {
            format,
            bytes: self.bytes[self.place.clone()].to_vec(),
        }
    }

    /// Where what is seen differs from this, in the slice or around it.
    pub fn differs(&self, seen: &Self, format: Format) -> Option<String> {
        let mut pairs = self.bytes.iter().zip(&seen.bytes);
        let at = pairs.position(|(due, seen)| due != seen)?;
        let inside = audio_differs(Some(&self.audio(format)), Some(&seen.audio(format)));
        inside.or_else(|| {
            Some(match at.checked_sub(self.place.end) {
                Some(past) => format!("written past the slice, {past} bytes from its end"),
                None => format!("written {} bytes before the slice", self.place.start - at),
            })
        })
    }
}

/// All of the exponent set, low byte first: a NaN, or rarely an infinity.
fn set_exponent(sample: &mut [u8]) {
    let top = sample.len() - 1;
    sample[top] |= 0x7f;
    sample[top - 1] |= if top == 7 { 0xf0 } else { 0x80 };
}

/// The slice by the side and by the model, then back again where it was taken:
/// the number, or where something else was left than is due.
pub fn play(slice: &Slice, side: Side) -> Result<u32, String> {
    let call = &slice.call;
    let mut seen = Lent::new(slice);
    let before = seen.clone();
    let mut due = seen.clone();
    let number = due.by(model::call, call);
    held(number, seen.by(side, call))?;
    if let Some(at) = due.differs(&seen, call.format) {
        let by = if number == 0 {
            ""
        } else {
            "changed by a refused call, "
        };
        return Err(format!("{by}{at}"));
    }
    if number == 0 {
        back(&before, seen, call, side).map_err(|at| format!("back again, {at}"))?;
    }
    Ok(number)
}

/// The inverse gives the first contents back.
fn back(before: &Lent, mut seen: Lent, call: &Call, side: Side) -> Result<(), String> {
    let inverse = Call {
        direction: call.direction.inverse(),
        ..*call
    };
    held(0, seen.by(side, &inverse))?;
    before.differs(&seen, call.format).map_or(Ok(()), Err)
}

fn held(due: u32, seen: u32) -> Result<(), String> {
    if due == seen {
        Ok(())
    } else {
        Err(format!("number: due {due}, seen {seen}"))
    }
}
