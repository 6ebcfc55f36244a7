//! The detector over runs of up to 32 samples, beside single pushes of the
//! Rust: each sample's answer, and the twelve remembered samples afterwards.

use std::fmt::Write as _;

use super::peak::{rows, same, start, TAPS};
use super::{shown, Difference, Settings};
use crate::dsp::oversample::{inside, PolyphaseUpsampler};
use crate::numbers::any;
use crate::rng::Rng;
use crate::signals::{signal, SIGNALS};
use crate::{probe, shrink};

/// The longest run that is taken.
const LONGEST: usize = 32;

/// Lengths of store and run that are refused: both are left alone.
const REFUSED: [(usize, usize); 6] = [(12, 33), (12, 44), (11, 32), (13, 32), (0, 1), (13, 33)];

/// What a run leaves: its answers and the store.
struct Left {
    run: Vec<f64>,
    store: Vec<f64>,
}

/// Sequences of every kind, cut into runs of every length, and refused shapes.
pub fn run(settings: &Settings) -> Result<u64, Difference> {
    let mut rng = Rng::new(settings.seed);
    let mut lengths = (0..=LONGEST).cycle();
    let mut compared = 0;
    for kind in SIGNALS.into_iter().cycle() {
        if compared >= settings.count {
            break;
        }
        let samples = signal(kind, 1 + rng.below(600) as usize, &mut rng);
        let mut case = start(&mut rng);
        let mut rest = &samples[..];
        while !rest.is_empty() {
            let length = lengths.next().unwrap_or(1).min(rest.len());
            let (run, later) = rest.split_at(length);
            case.extend(run);
            compared += length as u64;
            // The next run starts from the store that this one leaves.
            case = checked(&case, compared)?;
            rest = later;
        }
        refusals(&mut rng, &mut compared)?;
    }
    Ok(compared)
}

/// Compare one run and hand back the store afterwards. A case is the store and
/// behind it the run.
fn checked(case: &[f64], compared: u64) -> Result<Vec<f64>, Difference> {
    let (rust, proved) = (pushed(case), taken(case));
    if alike(&rust, &proved) {
        return Ok(rust.store);
    }
    let words = case.iter().map(|x| x.to_bits()).collect();
    let report = report(words);
    Err(Difference { compared, report })
}

/// Single pushes of the Rust.
fn pushed(case: &[f64]) -> Left {
    let mut rust = PolyphaseUpsampler::new(4, TAPS);
    inside::set_store(&mut rust, &case[..TAPS]);
    Left {
        run: case[TAPS..].iter().map(|&x| rust.peak_abs(x)).collect(),
        store: inside::store(&rust).to_vec(),
    }
}

/// One call of the proved code.
fn taken(case: &[f64]) -> Left {
    let (mut store, mut run) = (case[..TAPS].to_vec(), case[TAPS..].to_vec());
    probe::peaks_abs(&mut store, &mut run);
    Left { run, store }
}

/// Whether both sides left the same.
fn alike(one: &Left, other: &Left) -> bool {
    let same = |p: &[f64], q: &[f64]| p.iter().zip(q).all(|(p, q)| same(*p, *q));
    same(&one.run, &other.run) && same(&one.store, &other.store)
}

/// Refused shapes: neither slice may change, in any bit.
fn refusals(rng: &mut Rng, compared: &mut u64) -> Result<(), Difference> {
    for (store_len, run_len) in REFUSED {
        let before: Vec<f64> = (0..store_len + run_len).map(|_| any(rng)).collect();
        let mut after = before.clone();
        let (store, run) = after.split_at_mut(store_len);
        probe::peaks_abs(store, run);
        *compared += 1;
        let changed = |(p, q): (&f64, &f64)| p.to_bits() != q.to_bits();
        if before.iter().zip(&after).any(changed) {
            return Err(Difference {
                compared: *compared,
                report: format!("store of {store_len}, run of {run_len}: not left alone\n"),
            });
        }
    }
    Ok(())
}

/// The shortest and plainest run found that still splits the two.
fn report(words: Vec<u64>) -> String {
    let case = |words: &[u64]| -> Vec<f64> { words.iter().map(|&w| f64::from_bits(w)).collect() };
    let splits = |w: &[u64]| !alike(&pushed(&case(w)), &taken(&case(w)));
    let small = shrink::list(words, TAPS, &splits);
    let (rust, proved) = (pushed(&case(&small)), taken(&case(&small)));
    let mut text = String::from("smallest form:\n  store at the start, newest first:\n");
    rows(&mut text, &small[..TAPS]);
    let _ = writeln!(text, "  run:");
    rows(&mut text, &small[TAPS..]);
    different(&mut text, "run", &rust.run, &proved.run);
    different(&mut text, "store", &rust.store, &proved.store);
    text
}

/// The places at which two slices differ.
fn different(text: &mut String, name: &str, rust: &[f64], proved: &[f64]) {
    for (i, (p, q)) in rust.iter().zip(proved).enumerate() {
        if !same(*p, *q) {
            let (p, q) = (shown(p.to_bits()), shown(q.to_bits()));
            let _ = writeln!(text, "  {name}[{i}]: rust {p}, probe {q}");
        }
    }
}
