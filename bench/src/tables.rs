//! What is measured: the tables, and the choice of rows among them.

use crate::audio::Level::{self, Loud, Quiet};
use crate::measure::Case;
use crate::rearrange::Direction;
use crate::sample_type::SampleType::F32;
use crate::setups::Way;

/// Whom the proved code is timed beside.
#[derive(Clone, Copy, Debug, PartialEq, Eq)]
pub enum Beside {
    /// The Rust that it is a translation of.
    Rust,
    /// Plain Rust that rearranges through a second buffer.
    Plain(Direction),
    /// The Rust's own setup; the rows differ in the way of ours alone.
    Prepare,
    /// FFmpeg's limiter at four times the rate.
    Ffmpeg,
}

/// Rows under one title.
#[derive(Debug)]
pub struct Table {
    /// What the rows have in common.
    pub title: &'static str,
    /// Whom they are timed beside.
    pub beside: Beside,
    /// In the order that they are measured in.
    pub rows: Vec<Row>,
}

/// A row.
#[derive(Debug)]
pub struct Row {
    /// What it has of its own.
    pub name: String,
    /// What is measured.
    pub case: Case,
}

/// Frames in a block, from one alone to the most.
const LENGTHS: [usize; 7] = [1, 16, 32, 64, 512, 4096, 65_536];

/// Every table.
fn all() -> Vec<Table> {
    let usual = Case::default();
    let quiet = at(Quiet, usual);
    let small = Case { block: 32, ..quiet };
    vec![
        beside_rust(
            "stereo at 48,000, default settings, blocks of 512",
            [
                row("loud", usual),
                row("f32 loud", narrow(usual)),
                row("quiet", quiet),
                row("f32 quiet", narrow(quiet)),
            ],
        ),
        beside_rust(
            "look in frames, loud",
            [11, 24, 72, 288, 1152, 4096].map(|look| row(look, Case { look, ..usual })),
        ),
        beside_rust(
            "look in frames, quiet",
            [11, 72, 4096].map(|look| row(look, Case { look, ..quiet })),
        ),
        beside_rust(
            "look in frames, quiet, blocks of 32",
            [72, 4096].map(|look| row(look, Case { look, ..small })),
        ),
        beside_rust(
            "channels, loud",
            [1, 2, 4, 8].map(|channels| row(channels, Case { channels, ..usual })),
        ),
        beside_rust(
            "channels left out of 6, loud, the Rust with silence there",
            [0, 1, 5].map(|left_out| row(left_out, leaving_out(left_out))),
        ),
        beside_rust(
            "frames in a block, loud",
            LENGTHS.map(|block| row(block, Case { block, ..usual })),
        ),
        beside_rust(
            "frames in a block, quiet",
            LENGTHS.map(|block| row(block, Case { block, ..quiet })),
        ),
        beside_rust(
            "blocks of 512, asked where the highest peak sat",
            [
                row("loud", asked(usual)),
                row("f32 loud", asked(narrow(usual))),
                row("quiet", asked(quiet)),
                row("f32 quiet", asked(narrow(quiet))),
            ],
        ),
        beside_rust(
            "frames in a block, loud, asked where the highest peak sat",
            LENGTHS.map(|block| row(block, asked(Case { block, ..usual }))),
        ),
        beside_rust(
            "frames in a block, quiet, asked where the highest peak sat",
            LENGTHS.map(|block| row(block, asked(Case { block, ..quiet }))),
        ),
        beside_plain(
            "deinterleave within a slice, channels x frames",
            Direction::Deinterleave,
        ),
        beside_plain(
            "interleave within a slice, channels x frames",
            Direction::Interleave,
        ),
        beside_prepare(),
        beside_ffmpeg(),
    ]
}

/// Slices of three lengths, and of more channels; a block is a slice.
fn beside_plain(title: &'static str, direction: Direction) -> Table {
    let shapes = [
        ("2 x 4,096", 2, 4_096),
        ("2 x 16,384", 2, 16_384),
        ("2 x 65,536", 2, 65_536),
        ("6 x 65,536", 6, 65_536),
    ];
    let rows = shapes.iter().flat_map(|&(name, channels, block)| {
        let usual = Case::default();
        let case = Case {
            channels,
            block,
            ..usual
        };
        [row(name, case), row(format!("f32 {name}"), narrow(case))]
    });
    Table {
        title,
        beside: Beside::Plain(direction),
        rows: rows.collect(),
    }
}

/// The defaults at the highest rate, whose 1.5 ms are 288 frames: 277 weights.
fn beside_prepare() -> Table {
    let rows = [Way::Lent, Way::House, Way::Wrapper].map(|way| {
        let case = Case {
            rate: 192_000,
            look: 288,
            way,
            ..Case::default()
        };
        row(way.name(), case)
    });
    Table {
        title: "setup of stereo at 192,000, default settings, blocks up to 512",
        beside: Beside::Prepare,
        rows: rows.into(),
    }
}

/// Stereo at the defaults, whose 1.5 ms are 72 frames at 48,000 and 66 at 44,100.
fn beside_ffmpeg() -> Table {
    let rates = [("48,000", 48_000, 72), ("44,100", 44_100, 66)];
    let rows = rates.iter().flat_map(|&(name, rate, look)| {
        let usual = Case::default();
        let case = Case {
            rate,
            look,
            ..usual
        };
        [Loud, Quiet].map(|level| row(format!("{} {name}", level.name()), at(level, case)))
    });
    Table {
        title: "the same audio through FFmpeg",
        beside: Beside::Ffmpeg,
        rows: rows.collect(),
    }
}

fn beside_rust<const N: usize>(title: &'static str, rows: [Row; N]) -> Table {
    Table {
        title,
        beside: Beside::Rust,
        rows: rows.into(),
    }
}

fn row(name: impl ToString, case: Case) -> Row {
    Row {
        name: name.to_string(),
        case,
    }
}

fn at(level: Level, case: Case) -> Case {
    Case { level, ..case }
}

/// Six channels, of which so many of the last ones do not count.
fn leaving_out(left_out: usize) -> Case {
    Case {
        channels: 6,
        left_out,
        ..Case::default()
    }
}

/// The same, each block asked where its highest peak sat.
fn asked(case: Case) -> Case {
    Case {
        asked: true,
        ..case
    }
}

/// The same of f32 samples.
fn narrow(case: Case) -> Case {
    Case {
        sample: F32,
        ..case
    }
}

/// The tables with the rows that one of the words is found in, as `TITLE: ROW`
/// in letters of either case; with no word, all of them.
pub fn chosen(words: &[String]) -> Result<Vec<Table>, String> {
    let mut tables = all();
    if words.is_empty() {
        return Ok(tables);
    }
    for table in &mut tables {
        let title = table.title;
        let found = |row: &Row| words.iter().any(|word| has(title, &row.name, word));
        table.rows.retain(found);
    }
    tables.retain(|table| !table.rows.is_empty());
    if tables.is_empty() {
        let titles: Vec<&str> = all().iter().map(|table| table.title).collect();
        return Err(format!(
            "no row has {} in TITLE: ROW; the titles:\n{}",
            words.join(" or "),
            titles.join("\n")
        ));
    }
    Ok(tables)
}

fn has(title: &str, name: &str, word: &str) -> bool {
    let row = format!("{title}: {name}").to_lowercase();
    row.contains(&word.to_lowercase())
}

#[cfg(test)]
mod tests {
    use super::*;

    /// The rows that the words choose, as `TITLE: ROW`.
    fn labels(words: &[&str]) -> Vec<String> {
        let words: Vec<String> = words.iter().map(ToString::to_string).collect();
        let tables = chosen(&words).expect("rows");
        let rows = tables.iter().flat_map(|table| {
            let label = |row: &Row| format!("{}: {}", table.title, row.name);
            table.rows.iter().map(label).collect::<Vec<_>>()
        });
        rows.collect()
    }

    #[test]
    fn no_word_chooses_every_row() {
        let count: usize = all().iter().map(|table| table.rows.len()).sum();
        assert_eq!(labels(&[]).len(), count);
    }

    #[test]
    fn no_two_rows_have_one_label() {
        let mut seen = labels(&[]);
        seen.sort();
        let count = seen.len();
        seen.dedup();
        assert_eq!(seen.len(), count);
    }

    #[test]
    fn a_word_of_a_title_chooses_its_rows() {
        let seen = labels(&["blocks of 32"]);
        let title = "look in frames, quiet, blocks of 32";
        assert_eq!(seen, [format!("{title}: 72"), format!("{title}: 4096")]);
    }

    #[test]
    fn a_title_says_where_blocks_are_asked() {
        for table in all() {
            let says = table.title.contains("asked");
            assert!(table.rows.iter().all(|row| row.case.asked == says));
        }
    }

    #[test]
    fn channels_are_left_out_in_one_table_alone() {
        let tables = chosen(&["left out".into()]).expect("rows");
        let [table] = tables.as_slice() else {
            panic!("{tables:?}");
        };
        for row in &table.rows {
            assert_eq!((row.case.channels, row.case.level), (6, Loud));
            assert_eq!(row.case.left_out.to_string(), row.name);
        }
        let elsewhere = all().into_iter().filter(|t| t.title != table.title);
        let mut rows = elsewhere.flat_map(|table| table.rows);
        assert!(rows.all(|row| row.case.left_out == 0));
    }

    #[test]
    fn a_word_of_a_row_chooses_it_wherever_it_is() {
        let seen = labels(&["65536", "1152"]);
        let expected = [
            "look in frames, loud: 1152",
            "frames in a block, loud: 65536",
            "frames in a block, quiet: 65536",
            "frames in a block, loud, asked where the highest peak sat: 65536",
            "frames in a block, quiet, asked where the highest peak sat: 65536",
        ];
        assert_eq!(seen, expected);
    }

    #[test]
    fn a_word_may_span_title_and_row() {
        assert_eq!(labels(&["channels, loud: 8"]), ["channels, loud: 8"]);
    }

    #[test]
    fn the_rows_of_f32_stand_beside_those_of_f64() {
        let title = "stereo at 48,000, default settings, blocks of 512";
        let seen = labels(&["blocks of 512: "]);
        let names = ["loud", "f32 loud", "quiet", "f32 quiet"];
        assert_eq!(seen, names.map(|name| format!("{title}: {name}")));
        for row in chosen(&["f32".into()]).expect("rows").remove(0).rows {
            assert_eq!(row.case.sample, F32);
            assert_eq!(row.name, format!("f32 {}", row.case.level.name()));
        }
    }

    #[test]
    fn either_case_will_do() {
        assert_eq!(labels(&["ffmpeg"]).len(), 4);
    }

    #[test]
    fn setups_are_found_alone_and_are_at_the_defaults() {
        let tables = chosen(&["setup".into()]).expect("rows");
        let [table] = tables.as_slice() else {
            panic!("{tables:?}");
        };
        assert_eq!((table.beside, table.rows.len()), (Beside::Prepare, 3));
        for row in &table.rows {
            assert_eq!(row.name, row.case.way.name());
            let (settings, spec) = row.case.setup().of_ours();
            assert_eq!(settings, daggeryuzu::LimiterSettings::default());
            assert_eq!((spec.sample_rate, spec.channels), (192_000, 2));
            assert_eq!(spec.max_block, 512);
        }
    }

    #[test]
    fn a_word_that_is_nowhere_is_an_error() {
        let line = chosen(&["nowhere".into()]).expect_err("no row");
        assert!(line.contains("nowhere") && line.contains("channels, loud"));
    }

    #[test]
    fn each_row_is_what_its_name_says() {
        for table in chosen(&["blocks of 32".into()]).expect("rows") {
            for row in table.rows {
                assert_eq!((row.case.level, row.case.block), (Quiet, 32));
                assert_eq!(row.case.look.to_string(), row.name);
            }
        }
        for table in chosen(&["FFmpeg".into()]).expect("rows") {
            for row in table.rows {
                assert_eq!(table.beside, Beside::Ffmpeg);
                assert!((row.case.lookahead_ms() - 1.5).abs() < 0.01);
            }
        }
    }

    #[test]
    fn slices_of_both_directions_are_what_their_names_say() {
        let tables = chosen(&["interleave".into()]).expect("rows");
        let beside: Vec<Beside> = tables.iter().map(|table| table.beside).collect();
        let directions = [Direction::Deinterleave, Direction::Interleave];
        assert_eq!(beside, directions.map(Beside::Plain));
        for row in tables.into_iter().flat_map(|table| table.rows) {
            let Case {
                sample,
                channels,
                block,
                ..
            } = row.case;
            let narrow = if sample == F32 { "f32 " } else { "" };
            let name = format!("{narrow}{channels} x {block}");
            assert_eq!(row.name.replace(',', ""), name);
        }
    }
}
