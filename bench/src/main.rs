//! Times the proved limiter, through its safe wrapper, beside the Rust it is a
//! translation of: the same audio, the same calls, in one process; the proved
//! rearrangement beside plain Rust; its setup beside the Rust's; then the limiter
//! beside FFmpeg's. See README.md.

// `params!` of the Rust comes to our crate root through the generated tree,
// and the Rust names it by its absolute path.
#![allow(macro_expanded_macro_exports_accessed_by_absolute_paths)]

mod audio;
mod clock;
mod ffmpeg;
mod file;
mod folder;
mod machines;
mod measure;
mod rearrange;
mod sample_type;
mod setups;
mod table;
mod tables;

// The module tree of the Rust, as the oracle mounts it.
include!(concat!(env!("OUT_DIR"), "/tree.rs"));
#[path = "../../oracle/src/bisque/parameter.rs"]
mod parameter;
#[path = "../../oracle/src/bisque/processor.rs"]
mod processor;

use std::process::ExitCode;

use measure::Effort;
use sample_type::SampleType;

const USAGE: &str = "bench [--seconds S] [--rounds N] [--only WORD]..
           --seconds S   of audio a round, 4; 10 times as much where slices are rearranged,
                         15 times beside FFmpeg, there at most 600; 1,000 setups a second
           --rounds N    that are counted, 9
           --only WORD   the rows with WORD in TITLE: ROW, in letters of either case;
                         given again, the rows with any of the words
       bench --file RATE CHANNELS [TYPE]
           raw samples, f64 or f32 (f64), through the Rust, standard input to standard output";

/// What the command line asks for.
#[derive(Debug, PartialEq)]
struct Options {
    effort: Effort,
    only: Vec<String>,
}

fn main() -> ExitCode {
    let words: Vec<String> = std::env::args().skip(1).collect();
    let done = match words.first().map(String::as_str) {
        Some("--file") => file(&words[1..]),
        _ => options(&words).and_then(|options| run(&options)),
    };
    done.map_or_else(
        |line| {
            eprintln!("bench: {line}");
            ExitCode::FAILURE
        },
        |()| ExitCode::SUCCESS,
    )
}

/// A file through the Rust.
fn file(words: &[String]) -> Result<(), String> {
    let number = |i: usize| words.get(i).and_then(|w| w.parse::<u32>().ok());
    let (Some(rate), Some(channels @ 1..=8)) = (number(0), number(1)) else {
        return Err(USAGE.into());
    };
    let limit = match SampleType::named(words.get(2).map_or("f64", String::as_str)) {
        Some(SampleType::F64) => file::limit::<f64>,
        Some(SampleType::F32) => file::limit::<f32>,
        None => return Err(USAGE.into()),
    };
    limit(rate, channels as usize)
}

/// Reads the command line.
fn options(words: &[String]) -> Result<Options, String> {
    let mut options = Options {
        effort: Effort {
            seconds: 4.0,
            rounds: 9,
        },
        only: Vec::new(),
    };
    for pair in words.chunks(2) {
        let value = pair.get(1).map(String::as_str);
        let bad = || format!("{USAGE}\nnot: {}", pair.join(" "));
        match pair[0].as_str() {
            "--seconds" => {
                let read = value.and_then(|v| v.parse().ok());
                let good = read.filter(|s| (0.01..=600.0).contains(s));
                options.effort.seconds = good.ok_or_else(bad)?;
            }
            "--rounds" => {
                let read = value.and_then(|v| v.parse().ok());
                options.effort.rounds = read.filter(|n| *n > 0).ok_or_else(bad)?;
            }
            "--only" => options.only.push(value.ok_or_else(bad)?.into()),
            _ => return Err(bad()),
        }
    }
    Ok(options)
}

/// The tables that are asked for.
fn run(options: &Options) -> Result<(), String> {
    for table in tables::chosen(&options.only)? {
        table::print(&table, &options.effort)?;
    }
    Ok(())
}

#[cfg(test)]
mod tests {
    use super::*;

    fn read(line: &str) -> Result<Options, String> {
        let words: Vec<String> = line.split_whitespace().map(String::from).collect();
        options(&words)
    }

    #[test]
    fn without_options_all_is_measured() {
        let options = read("").expect("read");
        assert_eq!((options.effort.seconds, options.effort.rounds), (4.0, 9));
        assert!(options.only.is_empty());
    }

    #[test]
    fn options_are_read_and_words_add_up() {
        let options = read("--only quiet --rounds 3 --seconds 0.5 --only 288").expect("read");
        assert_eq!((options.effort.seconds, options.effort.rounds), (0.5, 3));
        assert_eq!(options.only, ["quiet", "288"]);
    }

    #[test]
    fn a_bad_option_is_told_with_the_usage() {
        for line in ["--only", "--rounds 0", "--seconds x", "--seconds 601", "-h"] {
            let said = read(line).expect_err(line);
            assert!(said.starts_with(USAGE) && said.ends_with(line), "{said}");
        }
    }
}
