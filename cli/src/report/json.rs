//! The report as JSON.

use std::fmt::Write as _;
use std::path::Path;

use daggeryuzu::PeakPlace;

use super::{left_out, peak, Report};
use crate::gains::Least;
use crate::input::Highest;
use crate::left_out::Channel;
use crate::meter::Peaks;
use crate::words::{clock, db};

/// A name and its value, which is JSON already.
type Member = (&'static str, String);

/// One object, one member to a line.
#[must_use]
pub fn json(report: &Report) -> String {
    let members = [
        file(report),
        limiter(report),
        levels(report),
        gains(report),
        work(report),
    ];
    let lines: Vec<String> = members
        .iter()
        .flatten()
        .map(|(name, value)| format!("  {}: {value}", quoted(name)))
        .collect();
    format!("{{\n{}\n}}\n", lines.join(",\n"))
}

/// What was read, and what was written.
fn file(report: &Report) -> Vec<Member> {
    let format = &report.format;
    let program = concat!("daggeryuzu ", env!("CARGO_PKG_VERSION"));
    let output = report.output.as_deref().map(path);
    vec![
        ("program", quoted(program)),
        ("input", path(&report.input)),
        ("output", output.unwrap_or("null".into())),
        ("container", quoted(format.container())),
        ("encoding", quoted(&format.encoding.name())),
        ("rate", format.rate.to_string()),
        ("channels", format.channels.to_string()),
        ("frames", report.frames().to_string()),
        ("seconds", number(Some(report.seconds()))),
    ]
}

/// What the limiter was set to.
fn limiter(report: &Report) -> Vec<Member> {
    let settings = &report.settings;
    vec![
        ("threshold_db", number(Some(settings.threshold_db))),
        ("margin_db", number(Some(settings.true_peak_margin_db))),
        ("lookahead_ms", number(Some(settings.lookahead_ms))),
        ("release_ms", number(Some(settings.release_ms))),
        ("look_frames", report.look.to_string()),
        ("weights", quoted(report.weights())),
        ("target_dbfs", number(Some(report.target_db()))),
    ]
}

/// The peaks of the whole file, for whoever checks what is delivered; beside them those of
/// the channels that count, which alone are held to the target.
fn levels(report: &Report) -> Vec<Member> {
    let (input, output) = (&report.outcome.input, &report.outcome.output);
    let left_out = report.left_out.iter().map(|c| left_out_one(report, *c));
    let highest = report.outcome.highest.map(|p| highest(report, &p));
    vec![
        ("in", peaks(input.all)),
        ("out", peaks(output.all)),
        ("counted_in", peaks(input.counted)),
        ("counted_out", peaks(output.counted)),
        ("left_out", list(left_out)),
        ("highest_peak", highest.unwrap_or("null".into())),
    ]
}

fn gains(report: &Report) -> Vec<Member> {
    let gains = &report.outcome.gains;
    let least = gains.least().map(|l| least(report, l));
    vec![
        ("least_gain", least.unwrap_or("null".into())),
        ("frames_below_unity", gains.below_unity().to_string()),
        ("frames_below_tenth_db", gains.below_tenth().to_string()),
    ]
}

fn work(report: &Report) -> Vec<Member> {
    let outcome = &report.outcome;
    let elapsed = outcome.elapsed.as_secs_f64();
    vec![
        ("samples_not_finite", outcome.input.not_finite.to_string()),
        ("elapsed_seconds", number(Some(elapsed))),
        ("real_time_factor", number(Some(report.speed()))),
    ]
}

fn peaks(peaks: Peaks) -> String {
    object(&[
        ("sample_peak_dbfs", number(db(peaks.sample))),
        ("detector_peak_dbfs", number(db(peaks.detector))),
    ])
}

/// A channel that was left out, counted from 0, with its own peaks.
fn left_out_one(report: &Report, channel: Channel) -> String {
    let [input, output] = left_out::peaks(report, channel);
    let place = channel.place.map(|place| quoted(place.name()));
    let above = left_out::above(report, channel);
    object(&[
        ("channel", channel.index.to_string()),
        ("place", place.unwrap_or("null".into())),
        ("in", peaks(input)),
        ("out", peaks(output)),
        ("above_target_db", number(Some(above))),
    ])
}

fn least(report: &Report, least: Least) -> String {
    object(&[
        ("gain", number(Some(least.gain))),
        ("gain_db", number(db(least.gain))),
        ("frame", least.frame.to_string()),
        ("time", quoted(&clock(least.frame, report.format.rate))),
    ])
}

/// Its channel counts from 0, as frames do.
fn highest(report: &Report, highest: &Highest) -> String {
    let seconds = highest.at(report.frames()) / f64::from(report.format.rate);
    let phase = match highest.place {
        PeakPlace::OnSample { .. } => "null".into(),
        PeakPlace::Between { phase, .. } => phase.to_string(),
    };
    object(&[
        ("dbfs", number(db(highest.height))),
        ("time", quoted(&peak::time(report, highest))),
        ("seconds", number(Some(seconds))),
        ("frame", highest.frame().to_string()),
        ("channel", highest.place.channel().to_string()),
        ("where", quoted(peak::seat(highest.place))),
        ("phase", phase),
    ])
}

fn list(items: impl Iterator<Item = String>) -> String {
    format!("[{}]", items.collect::<Vec<_>>().join(", "))
}

fn object(members: &[Member]) -> String {
    let members: Vec<String> = members
        .iter()
        .map(|(name, value)| format!("{}: {value}", quoted(name)))
        .collect();
    format!("{{ {} }}", members.join(", "))
}

/// JSON has no infinity: what is none or not finite is null.
fn number(x: Option<f64>) -> String {
    match x.filter(|x| x.is_finite()) {
        Some(x) => format!("{x}"),
        None => "null".into(),
    }
}

fn path(path: &Path) -> String {
    quoted(&path.to_string_lossy())
}

fn quoted(text: &str) -> String {
    let mut quoted = String::from("\"");
    for c in text.chars() {
        match c {
            '"' | '\\' => quoted.extend(['\\', c]),
            c if c.is_control() => {
                let _ = write!(quoted, "\\u{:04x}", u32::from(c));
            }
            c => quoted.push(c),
        }
    }
    quoted.push('"');
    quoted
}

#[cfg(test)]
mod tests {
    use super::*;

    #[test]
    fn text_and_numbers_are_json() {
        assert_eq!(quoted("a\"b\\c\nd é"), "\"a\\\"b\\\\c\\u000ad é\"");
        assert_eq!(number(Some(f64::INFINITY)), "null");
        assert_eq!(number(None), "null");
        assert_eq!(number(Some(-1.1)), "-1.1");
        assert_eq!(number(Some(48.0)), "48");
    }
}
