//! The time of the proved code beside the Rust's, in one run.

use std::hint::black_box;
use std::time::Instant;

use crate::dsp::oversample::PolyphaseUpsampler;
use crate::probe;
use crate::rng::Rng;
use crate::signals::{signal, Signal};

const SAMPLES: usize = 1 << 20;
const TURNS: usize = 20;
const RUN: usize = 32;

/// The detector, ns a sample, the best of some turns that go round all three.
pub fn detector() -> String {
    let samples = signal(Signal::Speech, SAMPLES, &mut Rng::new(1));
    let mut best = [f64::INFINITY; 3];
    for _ in 0..TURNS {
        let took = [rust(&samples), pushes(&samples), runs(&samples)];
        for (least, ns) in best.iter_mut().zip(took) {
            *least = least.min(ns);
        }
    }
    let [rust, pushes, runs] = best;
    format!(
        "detector, ns a sample, best of {TURNS} turns of {SAMPLES}: the Rust's peak_abs {rust:.1}; \
         peak_abs {pushes:.1}; peaks_abs in runs of {RUN} {runs:.1}\n"
    )
}

fn rust(samples: &[f64]) -> f64 {
    let mut detector = PolyphaseUpsampler::new(4, 12);
    timed(|| {
        for &x in samples {
            black_box(detector.peak_abs(x));
        }
    })
}

fn pushes(samples: &[f64]) -> f64 {
    let mut store = [0.0; 12];
    timed(|| {
        for &x in samples {
            black_box(probe::peak_abs(&mut store, x));
        }
    })
}

fn runs(samples: &[f64]) -> f64 {
    let (mut store, mut run) = ([0.0; 12], [0.0; RUN]);
    timed(|| {
        for part in samples.chunks_exact(RUN) {
            run.copy_from_slice(part);
            probe::peaks_abs(&mut store, &mut run);
            black_box(&run);
        }
    })
}

/// Nanoseconds a sample.
fn timed(work: impl FnOnce()) -> f64 {
    let start = Instant::now();
    work();
    start.elapsed().as_nanos() as f64 / SAMPLES as f64
}
