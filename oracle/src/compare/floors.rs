//! The floor keeper alone: beside the Rust's `step_env` from a setup on, and
//! beside the plain model on forged states and stores.

use std::fmt::Write as _;

use super::{shown, Difference, Settings};
use crate::gains::{course, COURSES};
use crate::mastering::limiter::{inside, Limiter};
use crate::model::keeper::{Keeping, Told};
use crate::rng::Rng;
use crate::{probe, rings, shrink};

/// The first step after which the two sides differ.
struct Split {
    at: usize,
    rust: (Told, Keeping),
    proved: (Told, Keeping),
}

/// Sequences of every kind on looks of every size, and forged keepers.
pub fn run(settings: &Settings) -> Result<u64, Difference> {
    let mut rng = Rng::new(settings.seed);
    let mut compared = 0;
    for kind in COURSES.into_iter().cycle() {
        if compared >= settings.count {
            break;
        }
        let look = look(&mut rng);
        let length = look + rng.below(2 * look as u64) as usize;
        let gains = course(kind, look, length, &mut rng);
        let words: Vec<u64> = gains.iter().map(|x| x.to_bits()).collect();
        if let Some(split) = first_split(look, &words) {
            compared += split.at as u64 + 1;
            let report = report(look, words);
            return Err(Difference { compared, report });
        }
        compared += length as u64;
        for _ in 0..length / 2 {
            forged(&mut rng, &mut compared)?;
        }
    }
    Ok(compared)
}

/// Mostly short looks, which a sequence fills more than once; each look and
/// the longest now and then.
fn look(rng: &mut Rng) -> usize {
    match rng.below(200) {
        0 => 4096,
        1 => 11 + rng.below(4086) as usize,
        2..=60 => 11 + rng.below(3) as usize,
        _ => 11 + rng.below(100) as usize,
    }
}

/// A setup of the proved keeper on stores that hold something else.
fn set_up(look: usize) -> (Told, Keeping) {
    let mut keeping = Keeping {
        state: [u64::MAX; 4],
        marks: vec![u64::MAX; look + 1],
        minima: vec![f64::NAN; look + 1],
    };
    (probe::floors_setup(&mut keeping, look), keeping)
}

/// Give both sides the same gains, from a setup on.
fn first_split(look: usize, gains: &[u64]) -> Option<Split> {
    let mut rust = inside::prepared(look, 0.0).expect("a good look");
    let (mut told, mut keeping) = set_up(look);
    let mut due = Told::number(0);
    for (at, &gain) in gains.iter().enumerate() {
        // The stores are compared whole before the first step and after the
        // last; between them what a step tells and the state.
        let ends = at == 0 || at + 1 == gains.len();
        if !alike(&rust, due, told, &keeping, ends) {
            return Some(split(at, due, &rust, told, keeping));
        }
        let gain = f64::from_bits(gain);
        let step = inside::step(&mut rust, gain);
        due = Told {
            number: 0,
            floor: step.floor.to_bits(),
            dropped: step.dropped as u64,
            kept: step.kept as u64,
        };
        told = probe::floors_step(&mut keeping, gain);
    }
    let same = alike(&rust, due, told, &keeping, true);
    (!same).then(|| split(gains.len(), due, &rust, told, keeping))
}

/// Whether both sides told the same and stand alike.
fn alike(rust: &Limiter, due: Told, told: Told, keeping: &Keeping, stores: bool) -> bool {
    due == told
        && inside::ring_state(rust) == keeping.state
        && (!stores || inside::ring(rust).same(keeping))
}

fn split(at: usize, due: Told, rust: &Limiter, told: Told, keeping: Keeping) -> Split {
    Split {
        at,
        rust: (due, inside::ring(rust)),
        proved: (told, keeping),
    }
}

/// A step and a setup of one forged keeper, beside the model.
fn forged(rng: &mut Rng, compared: &mut u64) -> Result<(), Difference> {
    let keeping = rings::forged(rng);
    let gain = rings::gain(&keeping, rng);
    let (mut due, mut proved) = (keeping.clone(), keeping.clone());
    let told = (due.step(gain), probe::floors_step(&mut proved, gain));
    *compared += 1;
    if told.0 != told.1 || !due.same(&proved) {
        let call = format!("step, gain {}", shown(gain.to_bits()));
        let report = forged_report(&call, &keeping, (told.0, &due), (told.1, &proved));
        return Err(Difference {
            compared: *compared,
            report,
        });
    }
    // Most lengths are those of the keeper's own look.
    let look = match rng.below(4) {
        0 => rng.pick(&[0, 10, 11, 4096, 4097, u64::MAX]),
        _ => keeping.marks.len() as u64 - 1,
    };
    let (mut due, mut proved) = (keeping.clone(), keeping.clone());
    let told = (
        due.setup(look),
        probe::floors_setup(&mut proved, look as usize),
    );
    *compared += 1;
    if told.0 != told.1 || !due.same(&proved) {
        let call = format!("setup, look {look}");
        let report = forged_report(&call, &keeping, (told.0, &due), (told.1, &proved));
        return Err(Difference {
            compared: *compared,
            report,
        });
    }
    Ok(())
}

fn forged_report(
    call: &str,
    before: &Keeping,
    due: (Told, &Keeping),
    proved: (Told, &Keeping),
) -> String {
    format!(
        "as found, {call}:\n  before: {before:?}\n  model:\n    {:?}\n    {:?}\n  probe:\n    {:?}\n    {:?}\n",
        due.0, due.1, proved.0, proved.1
    )
}

/// The shortest and plainest sequence found that still splits the two.
fn report(look: usize, words: Vec<u64>) -> String {
    let small = shrink::list(words, 0, &|w| first_split(look, w).is_some());
    // A shorter look shows as much, where it still splits the two.
    let look = (11..look)
        .find(|&l| first_split(l, &small).is_some())
        .unwrap_or(look);
    let Some(split) = first_split(look, &small) else {
        return "the difference did not come again\n".into();
    };
    let mut text = format!("smallest form, look {look}:\n  gains:\n");
    for &word in &small {
        let _ = writeln!(text, "    {}", shown(word));
    }
    let _ = writeln!(text, "  after {} steps:", split.at);
    for (name, (told, keeping)) in [("rust", split.rust), ("probe", split.proved)] {
        let _ = writeln!(text, "  {name}: {told:?}\n    {keeping:?}");
    }
    text
}
