//! The detector's phase beside the plain model, since the Rust tells none: which
//! sum is the first of the largest, and the twelve remembered samples, push by
//! push.

use std::fmt::Write as _;

use super::peak::{rows, same, start};
use super::{Difference, Settings};
use crate::calls::floats;
use crate::model::detector::{answer, phase, push, Sums, TAPS};
use crate::numbers::any;
use crate::rng::Rng;
use crate::signals::{signal, Signal, SIGNALS};
use crate::twelves::twelve;
use crate::{probe, shrink};

/// Kinds beside the recorded ones. Silence lets the store alone be heard.
const MORE: [Signal; 4] = [
    Signal::Pairs,
    Signal::Smallest,
    Signal::Silence,
    Signal::Silence,
];

/// Lengths of a store that is left alone, and no phase is told.
const REFUSED: [usize; 5] = [0, 1, 11, 13, 24];

/// What tells that there is no phase.
const NONE: u64 = 4;

/// The most pushes of a sequence: few, so that many start from a store of their
/// own.
const MOST: u64 = 80;

/// The first push after which the two sides differ.
struct Split {
    at: usize,
    model: Pushed,
    probe: Pushed,
}

/// What a push tells and leaves.
struct Pushed {
    phase: u64,
    store: [f64; TAPS],
}

/// Sequences of every kind, from an empty store and from any store.
pub fn run(settings: &Settings) -> Result<u64, Difference> {
    let mut rng = Rng::new(settings.seed);
    let mut tally = Tally::default();
    let mut compared = 0;
    for kind in SIGNALS.into_iter().chain(MORE).cycle() {
        if compared >= settings.count {
            break;
        }
        let length = 1 + rng.below(MOST) as usize;
        let mut case = match rng.below(2) {
            0 => twelve(&mut rng).to_vec(),
            _ => start(&mut rng),
        };
        case.extend(signal(kind, length, &mut rng));
        if let Some(split) = first_split(&case, &mut tally) {
            compared += split.at as u64 + 1;
            let report = report(&case);
            return Err(Difference { compared, report });
        }
        compared += length as u64;
        refusal(&mut rng, &mut compared)?;
    }
    println!("{}", tally.line());
    Ok(compared)
}

/// Push the samples after the first twelve, which are the store at the start.
fn first_split(case: &[f64], tally: &mut Tally) -> Option<Split> {
    let mut model = [0.0; TAPS];
    model.copy_from_slice(&case[..TAPS]);
    let mut probe = model;
    for (at, &x) in case[TAPS..].iter().enumerate() {
        let sums = push(&mut model, x);
        let due = phase(&sums).map_or(NONE, |phase| phase as u64);
        let seen = probe::peak_phase(&mut probe, x);
        let same_store = model.iter().zip(&probe).all(|(p, q)| same(*p, *q));
        if due != seen || !same_store {
            let pushed = |phase, store| Pushed { phase, store };
            return Some(Split {
                at,
                model: pushed(due, model),
                probe: pushed(seen, probe),
            });
        }
        tally.met(&sums);
    }
    None
}

/// A store of another length: no bit of it may change.
fn refusal(rng: &mut Rng, compared: &mut u64) -> Result<(), Difference> {
    let length = rng.pick(&REFUSED);
    let before: Vec<f64> = (0..length).map(|_| any(rng)).collect();
    let mut after = before.clone();
    let seen = probe::peak_phase(&mut after, any(rng));
    *compared += 1;
    let mut pairs = before.iter().zip(&after);
    let kept = pairs.all(|(p, q)| p.to_bits() == q.to_bits());
    if kept && seen == NONE {
        return Ok(());
    }
    Err(Difference {
        compared: *compared,
        report: format!("store of {length}: phase due {NONE}, seen {seen}; left alone: {kept}\n"),
    })
}

/// The shortest and plainest sequence found that still splits the two.
fn report(case: &[f64]) -> String {
    let split = |words: &[u64]| first_split(&floats(words), &mut Tally::default());
    let words = case.iter().map(|x| x.to_bits()).collect();
    let small = shrink::list(words, TAPS, &|w| split(w).is_some());
    let Some(Split { at, model, probe }) = split(&small) else {
        return "the difference did not come again\n".into();
    };
    let mut text = String::from("smallest form:\n  store at the start, newest first:\n");
    rows(&mut text, &small[..TAPS]);
    let _ = writeln!(text, "  pushed:");
    rows(&mut text, &small[TAPS..]);
    let (due, seen) = (model.phase, probe.phase);
    let _ = writeln!(text, "  after push {at} (from 0):");
    let _ = writeln!(text, "    phase: model {due}, probe {seen}");
    for (i, (p, q)) in model.store.iter().zip(&probe.store).enumerate() {
        if !same(*p, *q) {
            let _ = writeln!(text, "    store[{i}]: model {p:?}, probe {q:?}");
        }
    }
    text
}

/// What the phases of a run were decided by.
#[derive(Default)]
struct Tally {
    none: u64,
    phases: [u64; 4],
    tied: u64,
    infinite: u64,
    /// Infinite ones with another infinite phase, and those behind a NaN.
    infinite_tied: u64,
    behind_nan: u64,
    /// With a NaN sum, where a phase is told and where none is.
    nan: [u64; 2],
}

impl Tally {
    fn met(&mut self, sums: &Sums) {
        let (peak, told) = (answer(sums), phase(sums));
        let nan = sums.iter().any(|sum| sum.is_nan());
        self.nan[usize::from(told.is_none())] += u64::from(nan);
        let Some(first) = told else {
            self.none += 1;
            return;
        };
        self.phases[first] += 1;
        let tied = sums[first + 1..].iter().any(|sum| sum.abs() == peak);
        if peak.is_infinite() {
            self.infinite += 1;
            self.infinite_tied += u64::from(tied);
            let before = sums[..first].iter();
            self.behind_nan += u64::from(before.copied().any(f64::is_nan));
        } else {
            self.tied += u64::from(tied);
        }
    }

    fn line(&self) -> String {
        let [a, b, c, d] = self.phases;
        let [beside, instead] = self.nan;
        format!(
            "pushes: {} without a phase, {instead} of them with a NaN sum; phase 0 {a}, 1 {b}, 2 {c}, 3 {d}, \
             {} of them with a later phase as high, {beside} with a NaN sum beside it, {} infinite, \
             of which {} with a later infinite phase and {} behind a NaN",
            self.none, self.tied, self.infinite, self.infinite_tied, self.behind_nan
        )
    }
}
