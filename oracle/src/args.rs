//! The command line, read into one value.

use std::path::PathBuf;

use crate::audio::Types;
use crate::interleave;
use crate::whole::{Mode, Settings, DAMAGED};

/// What `oracle` can do.
pub const USAGE: &str = "usage:
  oracle record [--out DIR]       write the recorded answers
  oracle compare [--layer NAME] [--seed N] [--count N]
                                  run the proved code beside the Rust
  oracle whole [--rust] [--sample TYPE] [--sessions N] [--seed N]
                                  play sessions of the whole limiter: the Rust,
                                  the plain model, the proved code; with --rust
                                  longer ones, which the model only judges.
                                  TYPE: f64, f32, mixed (call by call) or any
  oracle damage [--sample TYPE] [--calls N] [--seed N]
                                  the same, with states and stores changed
  oracle model [--sample TYPE] [--sessions N] [--seed N]
  oracle model-damage [--sample TYPE] [--calls N] [--seed N]
                                  both, the plain model beside the Rust alone
  oracle interleave [--slices N] [--seed N]
                                  slices rearranged within themselves, and back:
                                  the proved code beside a plain model
  oracle record-whole FILE        write recorded sessions of the whole limiter
  oracle taps                     print the detector's taps, one phase to a line
  oracle time                     time the proved detector beside the Rust's
  oracle weights LOOK             print the attack weights for a look
  oracle house                    print the house tables, one after the other
  oracle steps LOOK [--release MS] GAIN...
                                  drive step_env with gains, each 16 hex digits
";

/// One command with its arguments.
#[derive(Debug, PartialEq)]
pub enum Command {
    Record {
        out: PathBuf,
    },
    Compare {
        layer: Option<String>,
        seed: u64,
        count: u64,
    },
    RecordWhole {
        out: PathBuf,
    },
    Whole(Settings),
    Model(Settings),
    Interleave(interleave::Settings),
    Taps,
    Time,
    House,
    Weights {
        look: usize,
    },
    Steps {
        look: usize,
        release_ms: f64,
        gains: Vec<f64>,
    },
}

/// Options by name, and the words that are none.
struct Words {
    options: Vec<(String, String)>,
    plain: Vec<String>,
}

impl Words {
    fn read(words: &[String], known: &[&str]) -> Result<Self, String> {
        let mut read = Self {
            options: Vec::new(),
            plain: Vec::new(),
        };
        let mut rest = words.iter();
        while let Some(word) = rest.next() {
            if !word.starts_with("--") {
                read.plain.push(word.clone());
                continue;
            }
            if !known.contains(&word.as_str()) {
                return Err(format!("unknown option {word}"));
            }
            let value = rest.next().ok_or(format!("{word} wants a value"))?;
            read.options.push((word.clone(), value.clone()));
        }
        Ok(read)
    }

    /// The last value given for an option.
    fn option(&self, name: &str) -> Option<&str> {
        let found = self.options.iter().rev().find(|(n, _)| n == name);
        found.map(|(_, value)| value.as_str())
    }

    /// An option's number, or `default` where it is not given.
    fn number<T: std::str::FromStr>(&self, name: &str, default: T) -> Result<T, String> {
        self.option(name).map_or(Ok(default), number)
    }

    /// Refuse plain words where a command takes none.
    fn no_plain(&self) -> Result<(), String> {
        match self.plain.first() {
            Some(word) => Err(format!("unexpected {word}")),
            None => Ok(()),
        }
    }
}

/// A word as a number.
fn number<T: std::str::FromStr>(word: &str) -> Result<T, String> {
    word.parse()
        .map_err(|_| format!("{word} is no number here"))
}

/// A float from its 16 hexadecimal digits.
fn bits(word: &String) -> Result<f64, String> {
    let read = u64::from_str_radix(word, 16).ok();
    let read = read.filter(|_| word.len() == 16);
    read.map(f64::from_bits)
        .ok_or(format!("{word} is not 16 hexadecimal digits"))
}

/// Read the words after the program's name.
pub fn parse(words: &[String]) -> Result<Command, String> {
    let (name, rest) = words.split_first().ok_or("no command")?;
    match name.as_str() {
        "record" => record(&Words::read(rest, &["--out"])?),
        "compare" => compare(&Words::read(rest, &["--layer", "--seed", "--count"])?),
        "record-whole" => Ok(Command::RecordWhole {
            out: file(name, rest)?,
        }),
        "whole" => Ok(Command::Whole(whole(rest)?)),
        "damage" => Ok(Command::Whole(damaged_calls(rest)?)),
        "model" => Ok(Command::Model(sessions(rest, Mode::Whole)?)),
        "model-damage" => Ok(Command::Model(damaged_calls(rest)?)),
        "interleave" => slices(&Words::read(rest, &["--slices", "--seed"])?),
        "taps" => alone(rest, Command::Taps),
        "time" => alone(rest, Command::Time),
        "house" => alone(rest, Command::House),
        "weights" => match Words::read(rest, &[])?.plain.as_slice() {
            [look] => Ok(Command::Weights {
                look: number(look)?,
            }),
            _ => Err("weights wants one look".into()),
        },
        "steps" => steps(&Words::read(rest, &["--release"])?),
        other => Err(format!("unknown command {other}")),
    }
}

/// A command that takes no words.
fn alone(rest: &[String], command: Command) -> Result<Command, String> {
    Words::read(rest, &[])?.no_plain()?;
    Ok(command)
}

/// The one file that a command wants.
fn file(name: &str, rest: &[String]) -> Result<PathBuf, String> {
    match Words::read(rest, &[])?.plain.as_slice() {
        [file] => Ok(file.into()),
        _ => Err(format!("{name} wants one file")),
    }
}

fn whole(rest: &[String]) -> Result<Settings, String> {
    let (rust, rest): (Vec<_>, Vec<_>) = rest.iter().cloned().partition(|w| w == "--rust");
    let mode = if rust.is_empty() {
        Mode::Whole
    } else {
        Mode::Direct
    };
    sessions(&rest, mode)
}

fn sessions(rest: &[String], mode: Mode) -> Result<Settings, String> {
    let words = Words::read(rest, &["--sample", "--sessions", "--seed"])?;
    let sessions = words.number("--sessions", 1_000)?;
    settings(&words, mode, sessions)
}

fn damaged_calls(rest: &[String]) -> Result<Settings, String> {
    let words = Words::read(rest, &["--sample", "--calls", "--seed"])?;
    let calls: u64 = words.number("--calls", 100_000)?;
    settings(&words, Mode::Damage, calls.div_ceil(DAMAGED))
}

fn settings(words: &Words, mode: Mode, sessions: u64) -> Result<Settings, String> {
    words.no_plain()?;
    Ok(Settings {
        mode,
        types: types(words.option("--sample").unwrap_or("any"))?,
        sessions,
        seed: words.number("--seed", 1)?,
    })
}

fn slices(words: &Words) -> Result<Command, String> {
    words.no_plain()?;
    Ok(Command::Interleave(interleave::Settings {
        slices: words.number("--slices", 100_000)?,
        seed: words.number("--seed", 1)?,
    }))
}

/// Sample types by their name.
fn types(name: &str) -> Result<Types, String> {
    match name {
        "f64" => Ok(Types::F64),
        "f32" => Ok(Types::F32),
        "mixed" => Ok(Types::Mixed),
        "any" => Ok(Types::Any),
        other => Err(format!("no sample type {other}")),
    }
}

fn record(words: &Words) -> Result<Command, String> {
    words.no_plain()?;
    let default = concat!(env!("CARGO_MANIFEST_DIR"), "/../crates/replay/data");
    Ok(Command::Record {
        out: words.option("--out").unwrap_or(default).into(),
    })
}

fn compare(words: &Words) -> Result<Command, String> {
    words.no_plain()?;
    Ok(Command::Compare {
        layer: words.option("--layer").map(str::to_owned),
        seed: words.number("--seed", 1)?,
        count: words.number("--count", 300_000)?,
    })
}

fn steps(words: &Words) -> Result<Command, String> {
    let (look, gains) = words.plain.split_first().ok_or("steps wants a look")?;
    Ok(Command::Steps {
        look: number(look)?,
        release_ms: words.number("--release", 50.0)?,
        gains: gains.iter().map(bits).collect::<Result<_, _>>()?,
    })
}

#[cfg(test)]
mod tests {
    use super::*;

    fn read(line: &str) -> Result<Command, String> {
        let words: Vec<String> = line.split_whitespace().map(str::to_owned).collect();
        parse(&words)
    }

    #[test]
    fn commands_read_as_they_are_written() {
        assert_eq!(read("taps"), Ok(Command::Taps));
        assert_eq!(read("house"), Ok(Command::House));
        let recorded = Command::RecordWhole { out: "x/y".into() };
        assert_eq!(read("record-whole x/y"), Ok(recorded));
        assert_eq!(read("weights 72"), Ok(Command::Weights { look: 72 }));
        let settings = |mode, sessions, seed| Settings {
            mode,
            types: Types::Any,
            sessions,
            seed,
        };
        let whole = Command::Whole(settings(Mode::Whole, 9, 3));
        assert_eq!(read("whole --sessions 9 --seed 3"), Ok(whole));
        let direct = Command::Whole(settings(Mode::Direct, 9, 1));
        assert_eq!(read("whole --rust --sessions 9"), Ok(direct));
        let narrow = Command::Whole(Settings {
            types: Types::F32,
            ..settings(Mode::Direct, 9, 1)
        });
        assert_eq!(read("whole --rust --sample f32 --sessions 9"), Ok(narrow));
        let model = Command::Model(settings(Mode::Whole, 1_000, 1));
        assert_eq!(read("model"), Ok(model));
        let damage = Command::Model(settings(Mode::Damage, 1, 1));
        assert_eq!(read("model-damage --calls 64"), Ok(damage));
        let damage = Command::Whole(settings(Mode::Damage, 2, 1));
        assert_eq!(read("damage --calls 65"), Ok(damage));
        assert_eq!(
            read("compare --layer exp --seed 7 --count 20"),
            Ok(Command::Compare {
                layer: Some("exp".into()),
                seed: 7,
                count: 20
            })
        );
        assert_eq!(
            read("steps 11 3fe0000000000000"),
            Ok(Command::Steps {
                look: 11,
                release_ms: 50.0,
                gains: vec![0.5]
            })
        );
    }

    #[test]
    fn slices_are_many_where_no_number_is_given() {
        let slices = |slices, seed| Command::Interleave(interleave::Settings { slices, seed });
        assert_eq!(read("interleave"), Ok(slices(100_000, 1)));
        assert_eq!(read("interleave --seed 3 --slices 9"), Ok(slices(9, 3)));
    }

    #[test]
    fn bad_words_are_refused() {
        for line in [
            "",
            "tap",
            "taps x",
            "house 48000",
            "record-whole x y",
            "record-whole",
            "whole x",
            "whole --calls 3",
            "model --rust",
            "damage --sessions 3",
            "damage --sample f16",
            "interleave 9",
            "interleave --sessions 9",
            "record --in x",
            "compare --seed",
            "compare --seed x",
        ] {
            assert!(read(line).is_err(), "{line}");
        }
        assert!(read("steps 11 3fe").is_err());
    }
}
