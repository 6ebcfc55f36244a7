//! The highest peak in words.

use daggeryuzu::PeakPlace;

use super::Report;
use crate::input::Highest;
use crate::words::{clock, level};

/// Its level, time, channel and seat; the channels count from 1.
pub(super) fn words(report: &Report, peak: &Highest) -> String {
    format!(
        "{} dBFS in, at {}, channel {}, {}",
        level(peak.height),
        time(report, peak),
        peak.place.channel() + 1,
        seat(peak.place)
    )
}

/// When it was. The instant is a whole number of eighths of a frame.
pub(super) fn time(report: &Report, peak: &Highest) -> String {
    let eighths = 8.0 * peak.at(report.frames());
    clock(eighths as u64, 8 * report.format.rate)
}

/// What it sat on.
pub(super) fn seat(place: PeakPlace) -> &'static str {
    match place {
        PeakPlace::OnSample { .. } => "on a sample",
        PeakPlace::Between { .. } => "between samples",
    }
}
