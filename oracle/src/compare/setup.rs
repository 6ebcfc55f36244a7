//! Look, target, release coefficient and the refusals 8 to 14: beside what the
//! Rust's `prepare` derives, and beside document 01 where the Rust is silent.

use super::{shown, Difference, Settings};
use crate::mastering::limiter::inside;
use crate::model::setup::{look, Setup};
use crate::numbers::canonical;
use crate::rng::Rng;
use crate::{probe, setups, shrink};

/// The answer for a release or a rate that setup refuses; no coefficient is
/// negative.
const NO_COEFF: f64 = -1.0;

/// One function's answers: what is due, and the proved code's.
struct Answers {
    name: &'static str,
    due: u64,
    proved: u64,
}

/// Random setups, each given to all four functions.
pub fn run(settings: &Settings) -> Result<u64, Difference> {
    let mut rng = Rng::new(settings.seed);
    for compared in 1..=settings.count {
        let setup = setups::setup(&mut rng);
        if split(&setup).is_some() {
            let report = report(&setup);
            return Err(Difference { compared, report });
        }
    }
    Ok(settings.count)
}

/// The first function whose answers differ.
fn split(setup: &Setup) -> Option<Answers> {
    let answers = [
        looks(setup),
        targets(setup),
        coefficients(setup),
        Answers {
            name: "refusal",
            due: setup.refusal().into(),
            proved: probe::refusal(setup).into(),
        },
    ];
    answers.into_iter().find(|a| a.due != a.proved)
}

/// The look that the Rust derives, at any rate but 0, else document 01's.
fn looks(setup: &Setup) -> Answers {
    let Setup {
        lookahead, rate, ..
    } = *setup;
    let rust = inside::look(lookahead, rate).map(|look| look as u64);
    Answers {
        name: "look",
        due: rust.unwrap_or(look(lookahead, rate)),
        proved: probe::look(lookahead, rate),
    }
}

/// The default target that the Rust derives where it keeps the threshold and
/// `exp` has the argument in its domain, else document 01's.
fn targets(setup: &Setup) -> Answers {
    let Setup {
        threshold, margin, ..
    } = *setup;
    let alike = (-30.0..=0.0).contains(&threshold) && (0.0..=6_000.0).contains(&margin);
    let rust = inside::derived(threshold, margin, 50.0, 48_000).filter(|_| alike);
    let due = rust.map_or_else(|| setup.target(), |derived| derived.target);
    Answers {
        name: "target",
        due: canonical(due),
        proved: canonical(probe::target(threshold, margin)),
    }
}

/// The release coefficient that the Rust derives, where setup takes it.
fn coefficients(setup: &Setup) -> Answers {
    let Setup { release, rate, .. } = *setup;
    let rust = inside::derived(-1.0, 0.1, release, rate).filter(|_| setup.has_coeff());
    let due = rust.map_or(NO_COEFF, |derived| derived.release_coeff);
    Answers {
        name: "coeff",
        due: canonical(due),
        proved: canonical(probe::coeff(release, rate)),
    }
}

/// The setup in its plainest form that still splits the two.
fn report(setup: &Setup) -> String {
    let small = shrink::words(words(setup), &|w| split(&read(w)).is_some());
    let setup = read(&small);
    let Some(Answers { name, due, proved }) = split(&setup) else {
        return "the difference did not come again\n".into();
    };
    format!(
        "smallest form:\n  {setup:?}\n  {name}:\n    due:   {}\n    probe: {}\n",
        told(name, due),
        told(name, proved)
    )
}

/// An answer in words.
fn told(name: &str, word: u64) -> String {
    match name {
        "look" | "refusal" => word.to_string(),
        _ => shown(word),
    }
}

/// A setup as floats, which is what the shrinker makes plain.
fn words(setup: &Setup) -> Vec<u64> {
    let counts = [
        f64::from(setup.rate),
        setup.channels as f64,
        setup.block as f64,
    ];
    let floats = [
        setup.threshold,
        setup.margin,
        setup.lookahead,
        setup.release,
    ];
    let all = floats.into_iter().chain(counts);
    all.map(f64::to_bits).collect()
}

/// The setup that floats stand for.
fn read(words: &[u64]) -> Setup {
    let float = |at: usize| f64::from_bits(words[at]);
    Setup {
        threshold: float(0),
        margin: float(1),
        lookahead: float(2),
        release: float(3),
        left_out: 0,
        rate: float(4) as u32,
        channels: float(5) as usize,
        block: float(6) as usize,
    }
}
