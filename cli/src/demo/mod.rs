//! A chapter to try the limiter on: a voice made from nothing, too loud in
//! places, and with peaks between its samples. The same bytes every time.

mod noise;
mod script;
mod voice;

use std::path::Path;

use crate::failure::Failure;
use crate::place::Pending;
use crate::sndfile::{Encoding, Format, Writer};
use crate::words::{clock, grouped};

/// Frames a second.
pub const RATE: u32 = 48_000;

/// Writes the chapter: what is to be printed.
///
/// # Errors
/// A file that cannot be written.
pub fn write(path: &Path) -> Result<String, Failure> {
    let samples = chapter();
    let pending = Pending::start(path)?;
    let unwritten = |e: String| Failure::at(path, format!("cannot be written: {e}"));
    let format = Format::wav_24(RATE, 2);
    let mut writer = Writer::start(pending.file()?, format).map_err(unwritten)?;
    writer.write(&samples).map_err(unwritten)?;
    writer.close().map_err(unwritten)?;
    pending.sync()?;
    pending.publish()?;
    let frames = samples.len() as u64 / 2;
    Ok(format!(
        "{}: {} frames, {}\n",
        path.display(),
        grouped(frames),
        clock(frames, RATE)
    ))
}

/// The chapter's samples, left and right by turns, as a file of 24 bits holds
/// them.
#[must_use]
pub fn chapter() -> Vec<f64> {
    let mono = script::spoken();
    // Right hears the voice a little later and softer, as a room does.
    let late = 23;
    let mut samples = Vec::with_capacity(2 * mono.len());
    for (i, left) in mono.iter().enumerate() {
        let far = if i < late { 0.0 } else { mono[i - late] };
        samples.push(Encoding::Pcm(24).round(*left));
        samples.push(Encoding::Pcm(24).round(0.8 * left + 0.15 * far));
    }
    samples
}
