//! The detector: the answer and the twelve remembered samples, push by push.

use std::fmt::Write as _;

use super::{shown, Difference, Settings};
use crate::dsp::oversample::{inside, PolyphaseUpsampler};
use crate::numbers::{any, canonical};
use crate::rng::Rng;
use crate::signals::{signal, SIGNALS};
use crate::{probe, shrink};

/// Remembered samples.
pub const TAPS: usize = 12;

/// The first push after which the two sides differ.
struct Split {
    at: usize,
    rust: f64,
    probe: f64,
    rust_store: Vec<f64>,
    probe_store: [f64; TAPS],
}

/// Sequences of every kind, from an empty store and from any store.
pub fn run(settings: &Settings) -> Result<u64, Difference> {
    let mut rng = Rng::new(settings.seed);
    let mut compared = 0;
    for kind in SIGNALS.into_iter().cycle() {
        if compared >= settings.count {
            break;
        }
        let length = 1 + rng.below(600) as usize;
        let mut case = start(&mut rng);
        case.extend(signal(kind, length, &mut rng));
        let words: Vec<u64> = case.iter().map(|x| x.to_bits()).collect();
        if let Some(split) = first_split(&words) {
            compared += split.at as u64 + 1;
            let report = report(words);
            return Err(Difference { compared, report });
        }
        compared += length as u64;
    }
    Ok(compared)
}

/// The store before the first push: mostly empty, as setup leaves it; at
/// times full of anything, as a host can leave it, so that a sum is a NaN.
pub fn start(rng: &mut Rng) -> Vec<f64> {
    let full = rng.below(4) == 0;
    let sample = |_| if full { any(rng) } else { 0.0 };
    (0..TAPS).map(sample).collect()
}

/// Push the words after the first twelve, which are the store at the start.
fn first_split(words: &[u64]) -> Option<Split> {
    let case: Vec<f64> = words.iter().map(|&w| f64::from_bits(w)).collect();
    let mut rust = PolyphaseUpsampler::new(4, TAPS);
    inside::set_store(&mut rust, &case[..TAPS]);
    let mut store = [0.0; TAPS];
    store.copy_from_slice(&case[..TAPS]);
    for (at, &x) in case[TAPS..].iter().enumerate() {
        let (one, other) = (rust.peak_abs(x), probe::peak_abs(&mut store, x));
        let remembered = inside::store(&rust);
        let same_store = remembered.iter().zip(&store).all(|(p, q)| same(*p, *q));
        if !same(one, other) || !same_store {
            return Some(Split {
                at,
                rust: one,
                probe: other,
                rust_store: remembered.to_vec(),
                probe_store: store,
            });
        }
    }
    None
}

/// The same bits, or both NaN.
pub fn same(p: f64, q: f64) -> bool {
    canonical(p) == canonical(q)
}

/// The shortest and plainest sequence found that still splits the two.
fn report(words: Vec<u64>) -> String {
    let small = shrink::list(words, TAPS, &|w| first_split(w).is_some());
    let Some(split) = first_split(&small) else {
        return "the difference did not come again\n".into();
    };
    let mut text = String::from("smallest form:\n");
    if small[..TAPS].iter().any(|&w| w != 0) {
        let _ = writeln!(text, "  store at the start, newest first:");
        rows(&mut text, &small[..TAPS]);
    }
    let _ = writeln!(text, "  pushed:");
    rows(&mut text, &small[TAPS..]);
    let (one, other) = (split.rust.to_bits(), split.probe.to_bits());
    let _ = writeln!(text, "  after push {} (from 0):", split.at);
    let _ = writeln!(
        text,
        "    rust:  {}\n    probe: {}",
        shown(one),
        shown(other)
    );
    for (i, (p, q)) in split.rust_store.iter().zip(&split.probe_store).enumerate() {
        if !same(*p, *q) {
            let (p, q) = (shown(p.to_bits()), shown(q.to_bits()));
            let _ = writeln!(text, "    store[{i}]: rust {p}, probe {q}");
        }
    }
    text
}

/// Samples, one to a line.
pub fn rows(text: &mut String, words: &[u64]) {
    for &word in words {
        let _ = writeln!(text, "    {}", shown(word));
    }
}
