//! Where the peaks of blocks sat, counted: what each was as high as, so that a
//! run shows which rule it met how often.

use super::choices::louder;
use crate::model::place::{highest, peaks, place, Frame, Heard, Place};

/// What a block answers, and what it is counted as.
#[derive(Clone, Copy, Debug, PartialEq, Eq)]
pub struct Found {
    pub place: Place,
    row: Option<usize>,
    met: [bool; MOST],
    /// Frames in which a channel that does not count is the highest.
    pub louder: u64,
}

/// Blocks by their place: empty ones, silent ones, and a row for each kind.
#[derive(Clone, Debug, Default, PartialEq, Eq)]
pub struct Places {
    pub empty: u64,
    pub silent: u64,
    pub rows: [Row; 3],
}

/// Blocks of a kind, and how many of them met each of its ties.
#[derive(Clone, Debug, Default, PartialEq, Eq)]
pub struct Row {
    pub blocks: u64,
    pub ties: [u64; MOST],
}

/// A block with a peak: how high that is, where it sat, the frame that is told
/// and all that are as high.
struct Told<'a> {
    peak: f64,
    place: Place,
    heard: &'a [Heard],
    high: Vec<&'a Frame>,
}

/// Something beside what is told, by name.
type Named = (&'static str, fn(&Told) -> bool);

/// The most ties of a row.
const MOST: usize = 5;

const FRAMES: Named = ("another frame as high", frames);
const KINDS: Named = ("such a frame of the other kind", kinds);
const CHANNELS: Named = ("another channel", channels);
const PHASES: Named = ("another phase", phases);
const DETECTORS: Named = ("a detector", detectors);
const NANS: Named = ("a NaN sum beside it", nans);

/// The kinds, and the ties that each can have.
const ROWS: [(&str, &[Named]); 3] = [
    ("on a sample", &[FRAMES, KINDS, CHANNELS, DETECTORS, NANS]),
    ("between samples", &[FRAMES, KINDS, CHANNELS, PHASES, NANS]),
    ("infinite", &[FRAMES, CHANNELS, PHASES, NANS]),
];

/// Another frame is as high, which is a later one.
fn frames(told: &Told) -> bool {
    told.high.len() > 1
}

/// Another frame is as high, by a sample where the one that is told is by a
/// detector alone, or the other way.
fn kinds(told: &Told) -> bool {
    let by_sample = |f: &[Heard]| f.iter().any(|h| h.has_sample(told.peak));
    let high = told.high.iter();
    high.map(|f| by_sample(f))
        .any(|by| by != by_sample(told.heard))
}

/// Another channel of the frame is as high in the same way.
fn channels(told: &Told) -> bool {
    let as_high = |h: &&Heard| match told.place {
        Place::Sample { .. } => h.has_sample(told.peak),
        _ => h.has_answer(told.peak),
    };
    told.heard.iter().filter(as_high).count() > 1
}

/// Another phase of the detector is as high.
fn phases(told: &Told) -> bool {
    let Place::Between { channel, .. } = told.place else {
        return false;
    };
    let sums = told.heard[channel].sums.iter();
    sums.filter(|sum| sum.abs() == told.peak).count() > 1
}

/// A detector of the frame is as high as the sample.
fn detectors(told: &Told) -> bool {
    told.heard.iter().any(|h| h.has_answer(told.peak))
}

/// A sum of the frame that counts is a NaN.
fn nans(told: &Told) -> bool {
    let counted = told.heard.iter().filter(|h| h.counts);
    counted.flat_map(|h| h.sums).any(f64::is_nan)
}

impl Found {
    /// What is found in a block's frames.
    pub fn of(frames: &[Frame]) -> Self {
        let (place, peaks) = (place(frames), peaks(frames));
        let peak = highest(&peaks);
        let nowhere = Self {
            place,
            row: None,
            met: [false; MOST],
            louder: louder(frames),
        };
        let (row, frame) = match place {
            Place::Nowhere => return nowhere,
            Place::Sample { frame, .. } => (0, frame),
            Place::Between { frame, .. } => (1 + usize::from(peak.is_infinite()), frame),
        };
        let high = frames.iter().zip(&peaks).filter(|(_, &p)| p == peak);
        let told = Told {
            peak,
            place,
            heard: &frames[frame],
            high: high.map(|(frame, _)| frame).collect(),
        };
        let mut met = [false; MOST];
        let ties = met.iter_mut().zip(ROWS[row].1);
        ties.for_each(|(met, (_, tie))| *met = tie(&told));
        let row = Some(row);
        Self {
            row,
            met,
            ..nowhere
        }
    }
}

impl Places {
    /// One block more, of so many frames.
    pub fn take(&mut self, found: &Found, frames: u64) {
        match found.row {
            None if frames == 0 => self.empty += 1,
            None => self.silent += 1,
            Some(row) => {
                let row = &mut self.rows[row];
                row.blocks += 1;
                let ties = row.ties.iter_mut().zip(found.met);
                ties.for_each(|(count, met)| *count += u64::from(met));
            }
        }
    }

    pub fn add(&mut self, other: &Self) {
        self.empty += other.empty;
        self.silent += other.silent;
        for (row, other) in self.rows.iter_mut().zip(&other.rows) {
            row.blocks += other.blocks;
            let ties = row.ties.iter_mut().zip(other.ties);
            ties.for_each(|(sum, n)| *sum += n);
        }
    }

    /// How often a row met a tie, by their names.
    #[cfg(test)]
    pub fn met(&self, row: &str, tie: &str) -> u64 {
        let at = ROWS.iter().position(|(name, _)| *name == row);
        let at = at.expect("a row");
        let ties = ROWS[at].1.iter().position(|(name, _)| *name == tie);
        self.rows[at].ties[ties.expect("a tie")]
    }

    /// The rows' ties, by their names.
    #[cfg(test)]
    pub fn names() -> Vec<(&'static str, &'static str)> {
        let rows = ROWS.iter();
        rows.flat_map(|(row, ties)| ties.iter().map(|(tie, _)| (*row, *tie)))
            .collect()
    }

    pub fn line(&self) -> String {
        let ties = |names: &[Named], counts: &[u64]| {
            let pairs = names.iter().zip(counts);
            let texts: Vec<String> = pairs.map(|((n, _), c)| format!("{n} {c}")).collect();
            texts.join(", ")
        };
        let rows = ROWS.iter().zip(&self.rows);
        let rows = rows.map(|((name, names), row)| {
            let ties = ties(names, &row.ties);
            format!("; {} {name}, of them with {ties}", row.blocks)
        });
        let Self { empty, silent, .. } = self;
        format!(
            "peaks of blocks: {empty} empty, {silent} silent{}\n",
            rows.collect::<String>()
        )
    }
}

#[cfg(test)]
mod tests {
    use super::*;

    const NAN: f64 = f64::NAN;
    const INF: f64 = f64::INFINITY;

    fn heard(sample: f64, sums: [f64; 4]) -> Heard {
        let counts = true;
        Heard {
            sample,
            sums,
            counts,
        }
    }

    /// The ties that a block is counted with.
    fn ties(frames: &[Frame]) -> (&'static str, Vec<&'static str>) {
        let found = Found::of(frames);
        let (name, names) = ROWS[found.row.expect("a peak")];
        let met = names.iter().zip(found.met).filter(|(_, met)| *met);
        (name, met.map(|((tie, _), _)| *tie).collect())
    }

    #[test]
    fn blocks_are_counted_by_what_they_are_as_high_as() {
        let sample = heard(-0.5, [0.1; 4]);
        let sums = heard(0.0, [0.0, 0.5, 0.0, -0.5]);
        let one = heard(0.1, [0.0, 0.5, NAN, 0.0]);
        let endless = heard(1.0, [NAN, 0.0, -INF, INF]);
        let (samples, between) = ("on a sample", "between samples");
        for (frames, row, met) in [
            (vec![vec![sample]], samples, &[][..]),
            (
                vec![vec![sample, sample], vec![sample, sums]],
                samples,
                &[FRAMES, CHANNELS],
            ),
            (vec![vec![one, sample]], samples, &[DETECTORS, NANS]),
            (vec![vec![sample], vec![sums]], samples, &[FRAMES, KINDS]),
            (vec![vec![sums]], between, &[PHASES]),
            (
                vec![vec![one, sums], vec![sample, sample]],
                between,
                &[FRAMES, KINDS, CHANNELS, NANS],
            ),
            (vec![vec![endless, sums]], "infinite", &[PHASES, NANS]),
            (
                vec![vec![endless, endless]; 2],
                "infinite",
                &[FRAMES, CHANNELS, PHASES, NANS],
            ),
        ] {
            let met: Vec<&str> = met.iter().map(|(name, _)| *name).collect();
            assert_eq!(ties(&frames), (row, met), "{frames:?}");
        }
    }

    #[test]
    fn counts_add_up_and_are_told() {
        let sample = heard(-0.5, [0.1; 4]);
        let found = |frames: &[Frame]| Found::of(frames);
        let mut places = Places::default();
        places.take(&found(&[]), 0);
        places.take(&found(&[vec![heard(0.0, [0.0; 4])]]), 1);
        places.take(&found(&[vec![sample], vec![sample]]), 2);
        let mut sum = places.clone();
        sum.add(&places);
        assert_eq!((sum.empty, sum.silent, sum.rows[0].blocks), (2, 2, 2));
        assert_eq!(sum.met("on a sample", "another frame as high"), 2);
        let line = "peaks of blocks: 2 empty, 2 silent; 2 on a sample, of them with another frame as high 2, ";
        assert!(sum.line().starts_with(line), "{}", sum.line());
    }
}
