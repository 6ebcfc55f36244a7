//! The report as a few lines.

use std::fmt::Write as _;

use super::{left_out, peak, Report};
use crate::words::{clock, grouped, level};

/// The lines for a reader.
#[must_use]
pub fn text(report: &Report) -> String {
    let outcome = &report.outcome;
    let (input, output) = (&outcome.input.counted, &outcome.output.counted);
    let mut text = String::new();
    let mut line = |name: &str, what: String| {
        let _ = writeln!(text, "{name:<16}{what}");
    };
    line("file", file(report));
    line("target", target(report));
    if !report.left_out.is_empty() {
        let names = left_out::names(report);
        line(
            "left out",
            format!("{names}; the next three lines are of the others"),
        );
    }
    let pair = |a, b| format!("{} dBFS in, {} dBFS out", level(a), level(b));
    line("sample peak", pair(input.sample, output.sample));
    line("detector peak", pair(input.detector, output.detector));
    let highest = outcome.highest.map(|p| peak::words(report, &p));
    line("highest peak", highest.unwrap_or("none".into()));
    for (name, what) in left_out::lines(report) {
        line(&name, what);
    }
    line("least gain", least(report));
    line("below unity", below_unity(report));
    if outcome.input.not_finite > 0 {
        let count = grouped(outcome.input.not_finite);
        line("not finite", format!("{count} samples, taken as silence"));
    }
    line("speed", format!("{:.0} x real time", report.speed()));
    let written = report.output.as_ref().map(|p| p.display().to_string());
    line("written", written.unwrap_or("nothing (dry run)".into()));
    text
}

/// What the file is.
fn file(report: &Report) -> String {
    let format = &report.format;
    format!(
        "{}: {}, {}, {} Hz, {} {}, {}",
        report.input.display(),
        format.container(),
        format.encoding.name(),
        grouped(format.rate.into()),
        format.channels,
        if format.channels == 1 {
            "channel"
        } else {
            "channels"
        },
        clock(report.frames(), format.rate)
    )
}

/// What the limiter was set to.
fn target(report: &Report) -> String {
    let settings = &report.settings;
    format!(
        "{:+.2} dBFS (threshold {:+}, margin {}, look {} frames, release {} ms, {} weights)",
        report.target_db(),
        settings.threshold_db,
        settings.true_peak_margin_db,
        report.look,
        settings.release_ms,
        report.weights()
    )
}

/// The least gain, and where.
fn least(report: &Report) -> String {
    match report.outcome.gains.least() {
        Some(least) => {
            let at = clock(least.frame, report.format.rate);
            format!("{} dB at {at}", level(least.gain))
        }
        None => "unity throughout".into(),
    }
}

/// How many frames had less gain than 1.
fn below_unity(report: &Report) -> String {
    let gains = &report.outcome.gains;
    let part = |count: u64| {
        let percent = 100.0 * count as f64 / report.frames().max(1) as f64;
        format!("{} ({percent:.2} %)", grouped(count))
    };
    format!(
        "{} of {} frames; by 0.1 dB or more: {}",
        part(gains.below_unity()),
        grouped(report.frames()),
        part(gains.below_tenth())
    )
}
