//! The command line.

use std::ffi::OsString;
use std::path::PathBuf;

use daggeryuzu::LimiterSettings;

use crate::failure::Failure;
use crate::left_out::{self, Named};

/// What `--help` prints.
pub const HELP: &str = "\
daggeryuzu limits the peaks of a sound file, on its samples and between them.

  daggeryuzu [OPTIONS] INPUT OUTPUT    limit a WAV, FLAC or AIFF file
  daggeryuzu --dry-run [OPTIONS] INPUT tell what would be done
  daggeryuzu demo FILE.wav             write a chapter to try it on

  --threshold DB    ceiling in dBFS, -30 to 0 (-1)
  --margin DB       margin below it, 0 to 30 (0.1)
  --lookahead MS    how far it looks ahead, 11 to 4,096 frames (1.5)
  --release MS      release time, 0 or 0.01 to 10,000 (50)
  --leave-out WHICH channels whose peaks do not count, as LFE or 4,5 (none)
  --block FRAMES    frames at a time, 1 to 65,536 (4096)
  --dry-run         write no sound
  --report FILE     write the report as JSON
  --plot FILE       write a picture of levels and gain as SVG
  --help, --version

OUTPUT has INPUT's format, rate, sample type, length and alignment, and appears
whole or not at all. INPUT is never changed.

WHICH is one channel, or more with commas, and the option may be given again: by
number, the first being 1, or by place, where INPUT tells the places: FL FR FC
LFE BL BR FLC FRC BC SL SR TC TFL TFC TFR TBL TBC TBR. A channel that is left out
gets the gain of the others, and nothing keeps it below the ceiling. One at least
has to count.
";

/// What is asked for.
#[derive(Debug, PartialEq)]
pub enum Command {
    /// The text above.
    Help,
    /// Name and version.
    Version,
    /// A demonstration chapter.
    Demo(PathBuf),
    /// The work.
    Limit(Job),
}

/// A file to be limited.
#[derive(Debug, PartialEq)]
pub struct Job {
    /// The file to read.
    pub input: PathBuf,
    /// The file to write; none for a dry run.
    pub output: Option<PathBuf>,
    /// The limiter's settings.
    pub settings: LimiterSettings,
    /// The channels that do not count.
    pub leave_out: Vec<Named>,
    /// Frames at a time.
    pub block: usize,
    /// Where the JSON goes.
    pub report: Option<PathBuf>,
    /// Where the SVG goes.
    pub plot: Option<PathBuf>,
}

/// Reads the words after the program's name.
///
/// # Errors
/// The line that says what is wrong with them.
pub fn parse(words: impl IntoIterator<Item = OsString>) -> Result<Command, Failure> {
    let mut words = words.into_iter();
    let mut paths: Vec<PathBuf> = Vec::new();
    let mut settings = LimiterSettings::default();
    let (mut block, mut dry_run, mut report, mut plot) = (4096, false, None, None);
    let mut leave_out = Vec::new();
    while let Some(word) = words.next() {
        let Some(option) = word.to_str().filter(|w| w.starts_with('-') && w.len() > 1) else {
            paths.push(word.into());
            continue;
        };
        let (name, inline) = match option.split_once('=') {
            Some((name, value)) => (name, Some(OsString::from(value))),
            None => (option, None),
        };
        let mut value = || {
            let value = inline.clone().or_else(|| words.next());
            value.ok_or_else(|| Failure::usage(format!("{name} needs a value")))
        };
        match name {
            "--threshold" => settings.threshold_db = number(name, value()?)?,
            "--margin" => settings.true_peak_margin_db = number(name, value()?)?,
            "--lookahead" => settings.lookahead_ms = number(name, value()?)?,
            "--release" => settings.release_ms = number(name, value()?)?,
            "--leave-out" => leave_out.extend(channels(name, value()?)?),
            "--block" => block = frames(name, value()?)?,
            "--report" => report = Some(value()?.into()),
            "--plot" => plot = Some(value()?.into()),
            "--dry-run" if inline.is_none() => dry_run = true,
            "--help" | "-h" if inline.is_none() => return Ok(Command::Help),
            "--version" | "-V" if inline.is_none() => return Ok(Command::Version),
            "--" => paths.extend(words.by_ref().map(PathBuf::from)),
            _ => return Err(Failure::usage(format!("no option {option} (see --help)"))),
        }
    }
    if paths.first().is_some_and(|p| p.as_os_str() == "demo") {
        return match paths.len() {
            2 => Ok(Command::Demo(paths.swap_remove(1))),
            _ => Err(Failure::usage("demo takes the name of one file to write")),
        };
    }
    let (input, output) = files(paths, dry_run)?;
    Ok(Command::Limit(Job {
        input,
        output,
        settings,
        leave_out,
        block,
        report,
        plot,
    }))
}

/// The file to read and the one to write; none for a dry run.
fn files(paths: Vec<PathBuf>, dry_run: bool) -> Result<(PathBuf, Option<PathBuf>), Failure> {
    let mut paths = paths.into_iter();
    let (input, output, more) = (paths.next(), paths.next(), paths.next());
    let input = input.ok_or_else(|| Failure::usage("no input file (see --help)"))?;
    if let Some(more) = more {
        let line = format!("one file too many: {}", more.display());
        return Err(Failure::usage(line));
    }
    if output.is_none() && !dry_run {
        return Err(Failure::usage("no output file (or --dry-run; see --help)"));
    }
    Ok((input, output.filter(|_| !dry_run)))
}

fn channels(name: &str, value: OsString) -> Result<Vec<Named>, Failure> {
    let words = value.to_string_lossy();
    let read = left_out::named(&words);
    read.map_err(|line| Failure::usage(format!("{name} needs {line}")))
}

fn number(name: &str, value: OsString) -> Result<f64, Failure> {
    let read = value.to_str().and_then(|v| v.parse().ok());
    read.ok_or_else(|| Failure::usage(format!("{name} needs a number, not {}", value.display())))
}

fn frames(name: &str, value: OsString) -> Result<usize, Failure> {
    let read = value.to_str().and_then(|v| v.parse().ok());
    read.filter(|n| *n > 0).ok_or_else(|| {
        let line = format!(
            "{name} needs a whole number above 0, not {}",
            value.display()
        );
        Failure::usage(line)
    })
}

#[cfg(test)]
mod tests {
    use super::*;

    fn read(line: &str) -> Result<Command, String> {
        let words = line.split_whitespace().map(OsString::from);
        parse(words).map_err(|e| e.to_string())
    }

    #[test]
    fn options_may_stand_anywhere() {
        let Ok(Command::Limit(job)) =
            read("a.wav --threshold -3 --margin=0.5 b.wav --block 64 --plot p.svg")
        else {
            panic!("not read");
        };
        assert_eq!(job.input, PathBuf::from("a.wav"));
        assert_eq!(job.output, Some(PathBuf::from("b.wav")));
        assert_eq!(job.settings.threshold_db, -3.0);
        assert_eq!(job.settings.true_peak_margin_db, 0.5);
        assert_eq!(job.settings.release_ms, 50.0);
        assert_eq!((job.block, job.report), (64, None));
        assert_eq!(job.plot, Some(PathBuf::from("p.svg")));
    }

    #[test]
    fn channels_to_leave_out_add_up() {
        let named = |words| left_out::named(words).expect(words);
        for (line, due) in [
            ("a b", vec![]),
            ("--leave-out LFE a b", named("LFE")),
            ("--leave-out=lfe,2 a b", named("LFE,2")),
            ("--leave-out lfe a --leave-out 2 b", named("LFE,2")),
        ] {
            let Ok(Command::Limit(job)) = read(line) else {
                panic!("not read: {line}");
            };
            assert_eq!(job.leave_out, due, "{line}");
            assert_eq!(job.settings, LimiterSettings::default());
        }
    }

    #[test]
    fn a_dry_run_has_no_output() {
        for line in ["--dry-run a.wav", "a.wav b.wav --dry-run"] {
            let Ok(Command::Limit(job)) = read(line) else {
                panic!("not read");
            };
            assert_eq!(job.output, None);
        }
    }

    #[test]
    fn what_cannot_be_read_is_said() {
        for (line, said) in [
            ("", "no input"),
            ("a", "no output"),
            ("a b c", "too many"),
            ("--loud a b", "no option --loud"),
            ("--threshold", "needs a value"),
            ("--threshold x a b", "needs a number"),
            ("--block 0 a b", "above 0"),
            (
                "--leave-out bass a b",
                "--leave-out needs a number from 1 to 8",
            ),
            ("--leave-out 9 a b", "or a place (FL FR "),
            ("--leave-out", "needs a value"),
            ("--dry-run=yes a", "no option"),
            ("demo", "one file"),
        ] {
            let told = read(line).expect_err(line);
            assert!(told.contains(said), "{line}: {told}");
        }
    }

    #[test]
    fn words_after_two_dashes_are_files() {
        let Ok(Command::Limit(job)) = read("-- --a --b") else {
            panic!("not read");
        };
        assert_eq!(job.input, PathBuf::from("--a"));
        assert_eq!(read("demo x.wav"), Ok(Command::Demo("x.wav".into())));
    }
}
