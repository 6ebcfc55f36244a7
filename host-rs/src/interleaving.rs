//! Interleaved audio, frame after frame as files hold it, and planar audio, channel
//! after channel as the limiter takes it.

use crate::refusal::Refusal;
use crate::sample::Sample;
use crate::sys;

/// Rearranges interleaved audio into planar, within the slice: the sample at
/// `frame × channels + channel` goes to `channel × frames + frame`. Every sample keeps
/// its bits, a NaN's too, and [`interleave`] brings it back.
///
/// ```
/// let mut audio = [1.0, 10.0, 2.0, 20.0, 3.0, 30.0]; // left and right by turns
/// daggeryuzu::deinterleave(2, &mut audio)?;
/// assert_eq!(audio, [1.0, 2.0, 3.0, 10.0, 20.0, 30.0]);
/// daggeryuzu::interleave(2, &mut audio)?;
/// assert_eq!(audio, [1.0, 10.0, 2.0, 20.0, 3.0, 30.0]);
/// # Ok::<(), daggeryuzu::Refusal>(())
/// ```
///
/// # Errors
/// 27 where the channels are not 1 to 8; 28 where there are more than 524,288 samples,
/// or not a whole number of frames.
pub fn deinterleave<T: Sample>(channels: usize, audio: &mut [T]) -> Result<(), Refusal> {
    finished(T::DEINTERLEAVE(channels, sys::bytes(audio)))
}

/// Rearranges planar audio into interleaved, within the slice: the inverse of
/// [`deinterleave`].
///
/// # Errors
/// As there.
pub fn interleave<T: Sample>(channels: usize, audio: &mut [T]) -> Result<(), Refusal> {
    finished(T::INTERLEAVE(channels, sys::bytes(audio)))
}

/// Neither refusal has values.
fn finished(number: u32) -> Result<(), Refusal> {
    match number {
        0 => Ok(()),
        number => Err(Refusal::new(number, [0, 0])),
    }
}
