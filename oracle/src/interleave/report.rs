//! What a run tells: its counts, or the smallest slice found that splits two
//! sides.

use super::play::{play, Counts, ALIGNED};
use super::{Call, Side, Slice};

/// The line of a run without a difference.
pub fn passed(counts: &Counts, seed: u64) -> String {
    let ([wide, narrow], [channels, length]) = (counts.samples, counts.refused);
    format!(
        "{} slices, {} samples there and back ({wide} f64, {narrow} f32), {} slices refused (27: {channels}, 28: {length}), 0 differences, seed {seed}\n",
        counts.slices,
        wide + narrow,
        channels + length,
    )
}

/// The lines of a run with a difference: the slice made as small as it gets.
pub fn differs(seed: u64, number: u64, slice: Slice, side: Side) -> String {
    let small = smallest(slice, &|slice| play(slice, side).is_err());
    let at = play(&small, side).err().unwrap_or_default();
    let shown = shown(&small);
    format!("1 difference, seed {seed}, slice {number}; smallest form:\n  {shown}\n{at}\n")
}

/// The slice with as little of everything as still fails.
fn smallest(mut slice: Slice, fails: &dyn Fn(&Slice) -> bool) -> Slice {
    let size = slice.call.format.size();
    let frame = frame(&slice.call).unwrap_or(size);
    for unit in [frame, size, 1] {
        slice = shorter(slice, unit, fails);
    }
    match plainer(&slice).into_iter().find(fails) {
        Some(next) => smallest(next, fails),
        None => slice,
    }
}

/// With fewer of a unit's bytes: half of them away, a quarter, .. one.
fn shorter(mut slice: Slice, unit: usize, fails: &dyn Fn(&Slice) -> bool) -> Slice {
    let mut away = (slice.bytes / unit).div_ceil(2);
    while away > 0 {
        let bytes = slice.bytes.checked_sub(away * unit);
        match bytes.map(|bytes| Slice { bytes, ..slice }).filter(fails) {
            Some(next) => slice = next,
            None => away /= 2,
        }
    }
    slice
}

/// With a channel less, at an address that suits, or with samples of any kind.
fn plainer(slice: &Slice) -> Vec<Slice> {
    let mut tries = Vec::new();
    if slice.call.channels > 1 && frame(&slice.call).is_some() {
        let mut fewer = *slice;
        fewer.call.channels -= 1;
        fewer.bytes -= slice.bytes / slice.call.channels;
        tries.push(fewer);
    }
    if slice.offset > 0 {
        let offset = 0;
        tries.push(Slice { offset, ..*slice });
    }
    if slice.nans {
        let nans = false;
        tries.push(Slice { nans, ..*slice });
    }
    tries
}

/// The bytes of a frame, where the channels are good.
fn frame(call: &Call) -> Option<usize> {
    let good = (1..=8).contains(&call.channels);
    good.then(|| call.channels * call.format.size())
}

/// The call and the slice in words.
fn shown(slice: &Slice) -> String {
    let Call {
        direction,
        format,
        channels,
    } = slice.call;
    let frames = frame(&slice.call).map(|frame| format!(" ({} frames)", slice.bytes / frame));
    format!(
        "{direction:?}, {format:?}, channels {channels}, bytes {}{}, address {} past a multiple of {ALIGNED}{}, seed of the bytes {}",
        slice.bytes,
        frames.unwrap_or_default(),
        slice.offset,
        if slice.nans { ", all NaN" } else { "" },
        slice.seed
    )
}
