//! The program `daggeryuzu`: limits the peaks of a sound file with the proved
//! limiter. README.md says how it is used.

pub mod args;
pub mod demo;
pub mod detector;
pub mod failure;
pub mod gains;
pub mod input;
pub mod interrupt;
pub mod left_out;
pub mod limit;
pub mod meter;
pub mod place;
pub mod progress;
pub mod report;
pub mod series;
pub mod sndfile;
pub mod words;
pub mod work;

use args::Command;
use failure::Failure;

/// Runs a command: what is to be printed.
///
/// # Errors
/// The line that says why not.
pub fn run(command: &Command) -> Result<String, Failure> {
    match command {
        Command::Help => Ok(args::HELP.into()),
        Command::Version => Ok(concat!("daggeryuzu ", env!("CARGO_PKG_VERSION"), "\n").into()),
        Command::Demo(path) => demo::write(path),
        Command::Limit(job) => work::run(job).map(|report| report::text(&report)),
    }
}
