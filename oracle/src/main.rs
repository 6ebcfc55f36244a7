//! The oracle: the Rust limiter, built unchanged and run for real, beside the
//! code that is proved. See README.md.

// `params!` of the Rust comes to our crate root through the generated tree,
// and the Rust names it by its absolute path.
#![allow(macro_expanded_macro_exports_accessed_by_absolute_paths)]

mod args;
mod arguments;
mod audio;
mod bank;
mod calls;
#[cfg(feature = "probe")]
mod compare;
#[cfg(feature = "probe")]
mod gains;
#[cfg(feature = "host")]
mod host;
mod houses;
mod interleave;
mod layout;
mod leaf;
mod model;
mod nearest;
mod numbers;
mod params;
#[cfg(feature = "probe")]
mod probe;
mod record;
mod rings;
mod rng;
mod samples;
mod setups;
mod show;
mod shrink;
mod signals;
mod singles;
mod tables;
#[cfg(feature = "probe")]
mod time;
mod twelves;
mod whole;

// The module tree of the Rust: its files as `build.rs` found them, and the
// two modules of names that its crate root has and docs/src lacks.
include!(concat!(env!("OUT_DIR"), "/tree.rs"));
#[path = "bisque/parameter.rs"]
mod parameter;
#[path = "bisque/processor.rs"]
mod processor;

use std::io::Write as _;
use std::process::ExitCode;

use args::Command;

/// Document 01 speaks of the release build.
const _: () = assert!(!cfg!(debug_assertions), "build without debug assertions");

fn main() -> ExitCode {
    let words: Vec<String> = std::env::args().skip(1).collect();
    match args::parse(&words) {
        Ok(command) => run(command).unwrap_or_else(|line| {
            eprintln!("oracle: {line}");
            ExitCode::from(2)
        }),
        Err(line) => {
            eprint!("oracle: {line}\n{}", args::USAGE);
            ExitCode::from(2)
        }
    }
}

/// Run one command: 0 where all is well, 1 where answers differ.
fn run(command: Command) -> Result<ExitCode, String> {
    let text = match command {
        Command::Record { out } => record::record(&out)?,
        Command::RecordWhole { out } => whole::write(&out)?,
        Command::Taps => show::taps(),
        Command::Time => timed()?,
        Command::Weights { look } => show::weights(look)?,
        Command::House => show::house()?,
        Command::Steps {
            look,
            release_ms,
            gains,
        } => show::steps(look, release_ms, &gains)?,
        Command::Compare { layer, seed, count } => {
            let passed = compared(layer.as_deref(), seed, count)?;
            return Ok(ExitCode::from(u8::from(!passed)));
        }
        Command::Whole(settings) => return Ok(played(&settings, Some(proved()?))),
        Command::Model(settings) => return Ok(played(&settings, None)),
        Command::Interleave(settings) => {
            return Ok(told(interleave::run(&settings, rearranging()?)))
        }
    };
    // A reader that closed the pipe has what it wanted.
    let _ = std::io::stdout().write_all(text.as_bytes());
    Ok(ExitCode::SUCCESS)
}

/// Play sessions of the whole limiter.
fn played(settings: &whole::Settings, proved: Option<calls::Side>) -> ExitCode {
    told(whole::run(settings, proved))
}

/// What a run found, told.
fn told((passed, text): (bool, String)) -> ExitCode {
    print!("{text}");
    ExitCode::from(u8::from(!passed))
}

/// The proved code behind its C functions.
#[cfg(feature = "host")]
fn proved() -> Result<calls::Side, String> {
    Ok(host::call)
}

#[cfg(not(feature = "host"))]
fn proved() -> Result<calls::Side, String> {
    Err("built without the proved limiter; build with --features host".into())
}

/// The proved rearrangement behind its C functions.
#[cfg(feature = "host")]
fn rearranging() -> Result<interleave::Side, String> {
    Ok(host::rearrange)
}

#[cfg(not(feature = "host"))]
fn rearranging() -> Result<interleave::Side, String> {
    Err("built without the proved rearrangement; build with --features host".into())
}

#[cfg(feature = "probe")]
fn compared(layer: Option<&str>, seed: u64, count: u64) -> Result<bool, String> {
    compare::compare(layer, &compare::Settings { seed, count })
}

#[cfg(feature = "probe")]
fn timed() -> Result<String, String> {
    Ok(time::detector())
}

#[cfg(not(feature = "probe"))]
fn timed() -> Result<String, String> {
    Err("built without the proved code; build with --features probe".into())
}

#[cfg(not(feature = "probe"))]
fn compared(_layer: Option<&str>, _seed: u64, _count: u64) -> Result<bool, String> {
    Err("built without the proved code; build with --features probe".into())
}
