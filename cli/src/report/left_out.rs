//! The channels that were left out. The lines and the picture show the peaks of the others,
//! which are held to the target; each of these has its own.

use super::Report;
use crate::left_out::Channel;
use crate::meter::Peaks;
use crate::words::{db, level};

/// Less above the target than this is not told in words: it would read as 0.00.
const LEAST_TOLD: f64 = 0.005;

/// The peaks of one, in and out.
pub(super) fn peaks(report: &Report, channel: Channel) -> [Peaks; 2] {
    let outcome = &report.outcome;
    [&outcome.input, &outcome.output].map(|measured| measured.channels[channel.index])
}

/// The dB by which the higher of its two peaks came out above the target; 0 where neither
/// did.
pub(super) fn above(report: &Report, channel: Channel) -> f64 {
    let [_, out] = peaks(report, channel);
    db(out.higher()).map_or(0.0, |out| (out - report.target_db()).max(0.0))
}

/// The same, where there is enough of it to be told in words.
pub(super) fn told_above(report: &Report, channel: Channel) -> Option<f64> {
    Some(above(report, channel)).filter(|above| *above >= LEAST_TOLD)
}

/// Their names; empty where there are none.
pub(super) fn names(report: &Report) -> String {
    let names: Vec<String> = report.left_out.iter().map(Channel::to_string).collect();
    names.join(", ")
}

/// The names of lines and what they say: the peaks of each, then those that came out above
/// the target.
pub(super) fn lines(report: &Report) -> Vec<(String, String)> {
    let channels = report.left_out.iter();
    let own = channels
        .clone()
        .map(|channel| (channel.to_string(), words(report, *channel)));
    let above = channels.filter_map(|channel| {
        let above = told_above(report, *channel)?;
        let told = format!("{channel} comes out {above:.2} dB above the target");
        Some(("above target".into(), told))
    });
    own.chain(above).collect()
}

/// The peaks of one in words.
fn words(report: &Report, channel: Channel) -> String {
    let [a, b] = peaks(report, channel);
    format!(
        "sample peak {} dBFS in, {} dBFS out; detector peak {} dBFS in, {} dBFS out",
        level(a.sample),
        level(b.sample),
        level(a.detector),
        level(b.detector)
    )
}
