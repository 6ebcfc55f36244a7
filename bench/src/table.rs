//! A table on standard output.

use std::io::Write as _;

use crate::ffmpeg;
use crate::measure::{self, Case, Effort, Measured, Spread};
use crate::rearrange;
use crate::setups::{self, Way};
use crate::tables::{Beside, Table};

/// What a time is of.
#[derive(Clone, Copy)]
enum Unit {
    Frame,
    /// Rearranging one takes little: its time has a place more.
    Sample,
    /// It takes much, and has no part in a frame.
    Setup,
}

impl Unit {
    fn name(self) -> &'static str {
        match self {
            Self::Frame => "frame",
            Self::Sample => "sample",
            Self::Setup => "setup",
        }
    }

    fn places(self) -> usize {
        match self {
            Self::Frame => 1,
            Self::Sample => 2,
            Self::Setup => 0,
        }
    }

    /// So many of them in a frame, where that is what is timed.
    fn in_frame(self, case: &Case) -> Option<f64> {
        match self {
            Self::Frame => Some(1.0),
            Self::Sample => Some(case.channels as f64),
            Self::Setup => None,
        }
    }

    /// The last column's heading.
    fn speed(self) -> &'static str {
        match self {
            Self::Frame | Self::Sample => "real time",
            Self::Setup => "",
        }
    }
}

/// Measures the rows and prints each as it comes.
pub fn print(table: &Table, effort: &Effort) -> Result<(), String> {
    println!("\n{}", table.title);
    match table.beside {
        Beside::Rust => rows(table, "the Rust", Unit::Frame, |case| {
            measure::measure(case, effort).map(Some)
        }),
        Beside::Plain(direction) => rows(table, "plain Rust", Unit::Sample, |case| {
            rearrange::measure(direction, case, effort).map(Some)
        }),
        Beside::Prepare => {
            let ways: Vec<Way> = table.rows.iter().map(|row| row.case.way).collect();
            let seen = setups::measure(&ways, &table.rows[0].case, effort)?;
            let mut seen = seen.into_iter();
            rows(table, "the Rust", Unit::Setup, |_| Ok(seen.next()))
        }
        Beside::Ffmpeg => match ffmpeg::version("ffmpeg")? {
            None => {
                println!("skipped: no ffmpeg on PATH");
                Ok(())
            }
            Some(version) => {
                println!("{version}");
                rows(table, "FFmpeg", Unit::Frame, |case| {
                    ffmpeg::measure(case, effort)
                })
            }
        },
    }
}

/// The rows, under a line that says whose the columns are.
fn rows(
    table: &Table,
    theirs: &str,
    unit: Unit,
    mut measure: impl FnMut(&Case) -> Result<Option<Measured>, String>,
) -> Result<(), String> {
    let ours = format!("ours, ns a {}", unit.name());
    let heading = format!(
        "{:>14}  {ours:>26}  {theirs:>26}  {:>20}  {:>9}",
        "",
        "ratio",
        unit.speed()
    );
    println!("{}", heading.trim_end());
    for row in &table.rows {
        let seen = measure(&row.case)?;
        println!("{:>14}  {}", row.name, line(&row.case, unit, seen));
        let _ = std::io::stdout().flush();
    }
    Ok(())
}

/// A row without its name.
fn line(case: &Case, unit: Unit, seen: Option<Measured>) -> String {
    let Some(seen) = seen else {
        return "too short beside FFmpeg's own start: more --seconds".into();
    };
    let times = format!(
        "{:>26}  {:>26}  {:>20}",
        spread(seen.ours, unit.places()),
        spread(seen.theirs, unit.places()),
        spread(seen.ratio, 2)
    );
    let Some(count) = unit.in_frame(case) else {
        return times;
    };
    let speed = 1e9 / f64::from(case.rate) / (seen.ours.median * count);
    format!("{times}  {speed:>7.0} x")
}

/// The median, the lowest and the highest, to so many places.
fn spread(s: Spread, places: usize) -> String {
    format!(
        "{:.places$} ({:.places$} to {:.places$})",
        s.median, s.low, s.high
    )
}

#[cfg(test)]
mod tests {
    use super::*;

    /// The columns of a row of stereo at 50,000 that takes these.
    fn columns(unit: Unit, times: (f64, f64)) -> Vec<String> {
        let case = Case {
            rate: 50_000,
            ..Case::default()
        };
        line(&case, unit, Some(Measured::of(&[times])))
            .split("  ")
            .filter(|word| !word.is_empty())
            .map(|word| word.trim().to_string())
            .collect()
    }

    #[test]
    fn a_line_has_both_times_the_ratio_and_how_fast_ours_is() {
        let expected = [
            "100.0 (100.0 to 100.0)",
            "200.0 (200.0 to 200.0)",
            "0.50 (0.50 to 0.50)",
            "200 x",
        ];
        assert_eq!(columns(Unit::Frame, (100.0, 200.0)), expected);
    }

    #[test]
    fn a_frame_has_a_sample_of_each_channel() {
        let expected = [
            "2.50 (2.50 to 2.50)",
            "1.25 (1.25 to 1.25)",
            "2.00 (2.00 to 2.00)",
            "4000 x",
        ];
        assert_eq!(columns(Unit::Sample, (2.5, 1.25)), expected);
    }

    #[test]
    fn a_setup_has_no_speed() {
        let expected = [
            "100 (100 to 100)",
            "400 (400 to 400)",
            "0.25 (0.25 to 0.25)",
        ];
        assert_eq!(columns(Unit::Setup, (100.0, 400.0)), expected);
    }

    #[test]
    fn a_row_that_is_too_short_says_so() {
        assert!(line(&Case::default(), Unit::Frame, None).contains("--seconds"));
    }
}
