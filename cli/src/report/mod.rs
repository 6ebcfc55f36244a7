//! What is told at the end.

mod json;
mod left_out;
mod peak;
mod svg;
mod text;

pub use json::json;
pub use svg::svg;
pub use text::text;

use std::path::PathBuf;

use daggeryuzu::LimiterSettings;

use crate::left_out::Channel;
use crate::limit::Outcome;
use crate::sndfile::Format;

/// All that the reports are made from.
#[derive(Clone, Debug)]
pub struct Report {
    /// The file that was read.
    pub input: PathBuf,
    /// The file that was written, or none.
    pub output: Option<PathBuf>,
    /// What both are.
    pub format: Format,
    /// The limiter's settings.
    pub settings: LimiterSettings,
    /// The channels that it left out.
    pub left_out: Vec<Channel>,
    /// Frames that it looks ahead.
    pub look: usize,
    /// Whether it ran on a house table of weights.
    pub house_weights: bool,
    /// What the work came to.
    pub outcome: Outcome,
}

impl Report {
    /// Frames of the file.
    #[must_use]
    pub fn frames(&self) -> u64 {
        self.outcome.gains.frames()
    }

    /// The file's length in seconds.
    #[must_use]
    pub fn seconds(&self) -> f64 {
        self.frames() as f64 / f64::from(self.format.rate)
    }

    /// The level that no peak is to pass, in dBFS.
    #[must_use]
    pub fn target_db(&self) -> f64 {
        self.settings.threshold_db - self.settings.true_peak_margin_db
    }

    /// Whose the limiter's weights were.
    #[must_use]
    pub fn weights(&self) -> &'static str {
        if self.house_weights {
            "house"
        } else {
            "computed"
        }
    }

    /// Seconds of sound for each second of work.
    #[must_use]
    pub fn speed(&self) -> f64 {
        self.seconds() / self.outcome.elapsed.as_secs_f64().max(1e-9)
    }
}
