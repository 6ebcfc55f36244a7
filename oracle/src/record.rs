//! Writes the Rust's answers that the repository keeps and a program replays.

use std::f64::consts::LN_2;
use std::fs;
use std::path::Path;

use crate::arguments::{draw, exp_argument, EXP_HALVES, EXP_KINDS};
use crate::bank::{self, Answer, Call};
use crate::dsp::oversample::PolyphaseUpsampler;
use crate::leaf::{Case, Op, LEAVES};
use crate::nearest::{hard, OVERFLOW};
use crate::numbers::{edge, edges, near, stepped};
use crate::params;
use crate::rng::Rng;
use crate::signals::{signal, SIGNALS};

/// The recorded files never depend on the command line.
const SEED: u64 = 1;

/// Cases of each leaf function but `exp`.
const EACH: usize = 150;

/// One in so many of the places that are hard to round to f32.
const HARD: usize = 29;

/// The word at which a sequence starts, from a detector as setup leaves it. It
/// is a NaN that no sequence has, so it can be told from a sample.
const START: u64 = 0x7ff8_0000_0000_0001;

/// Recorded banks, and the calls of each.
const BANKS: usize = 230;
const CALLS: usize = 40;

/// Write every file into `folder`; answers one line a file.
pub fn record(folder: &Path) -> Result<String, String> {
    fs::create_dir_all(folder).map_err(|e| format!("{}: {e}", folder.display()))?;
    let mut text = String::new();
    for (name, words) in [("leaves", leaves()), ("peaks", peaks()), ("bank", bank())] {
        let bytes: Vec<u8> = words.iter().flat_map(|w| w.to_le_bytes()).collect();
        let path = folder.join(name);
        fs::write(&path, &bytes).map_err(|e| format!("{}: {e}", path.display()))?;
        text += &format!("{}: {} bytes\n", path.display(), bytes.len());
    }
    Ok(text)
}

/// The file `leaves`: op, a, b, c, status, answer.
fn leaves() -> Vec<u64> {
    let mut rng = Rng::new(SEED);
    let mut cases = exp_cases(&mut rng);
    for op in LEAVES {
        cases.extend(leaf_cases(op, &mut rng));
    }
    cases.extend(narrow_cases(&mut rng));
    cases.extend((0..EACH).map(|_| draw(Op::Widen, &mut rng)));
    let words = |case: Case| {
        let ([a, b, c], answer) = (case.words, case.rust());
        [case.op as u64, a, b, c, answer.status, answer.word]
    };
    cases.into_iter().flat_map(words).collect()
}

/// Every kind of argument for `exp`: both sides of each change of its way and
/// of each power of two, the domain's ends, and random ones of each kind.
fn exp_cases(rng: &mut Rng) -> Vec<Case> {
    let mut list = edges();
    for half in EXP_HALVES {
        for start in [half << 32, (half + 1) << 32] {
            let x = -f64::from_bits(start);
            list.extend((-8..=8).map(|ulps| stepped(x, ulps)));
            list.extend([-64, -32, 32, 64].map(|ulps| stepped(x, ulps)));
        }
    }
    // Just past 2^-28, where 1 + x and the longer way differ in the last bit:
    // 32 spots before the change of way and 32 after it.
    let first = f64::from_bits(EXP_HALVES[0] << 32);
    let spot = |j: u32| (f64::from(j) + 0.53125) * (f64::EPSILON / 2.0);
    list.extend((0..64).map(|j| -(first + spot(j))));
    for k in 0..1010 {
        let change = -(f64::from(k) + 0.5) * LN_2;
        list.push(near(rng, change, 2));
    }
    list.extend((-8..=8).map(|ulps| stepped(-700.0, ulps)));
    for kind in 0..EXP_KINDS {
        let count = if kind < 2 { 300 } else { 100 };
        list.extend((0..count).map(|_| exp_argument(kind, rng)));
    }
    list.iter().map(|&x| Case::new(Op::Exp, &[x])).collect()
}

/// Cases of one leaf function. Those whose sign is open have no one answer.
fn leaf_cases(op: Op, rng: &mut Rng) -> Vec<Case> {
    let mut cases: Vec<Case> = if op.arity() == 1 {
        edges().iter().map(|&x| Case::new(op, &[x])).collect()
    } else {
        (0..200)
            .map(|_| Case::new(op, &[edge(rng), edge(rng), edge(rng)][..op.arity()]))
            .filter(|case| case.allowed() && !case.open_sign())
            .take(EACH / 3)
            .collect()
    };
    while cases.len() < EACH {
        let case = draw(op, rng);
        if !case.open_sign() {
            cases.push(case);
        }
    }
    cases
}

/// Roundings to f32: a share of the hard places, the ends, and random ones.
fn narrow_cases(rng: &mut Rng) -> Vec<Case> {
    let smallest = f64::from(f32::MIN_POSITIVE).to_bits();
    let ends = [OVERFLOW, smallest].into_iter().map(f64::from_bits);
    let ends = ends.flat_map(|x| [-1, 0, 1].map(|ulps| stepped(x, ulps)));
    let places = hard().step_by(HARD).chain(ends).chain(edges());
    let mut cases: Vec<Case> = places.map(|x| Case::new(Op::Narrow, &[x])).collect();
    cases.extend((0..EACH).map(|_| draw(Op::Narrow, rng)));
    cases
}

/// The file `peaks`: sample, answer; each sequence after a start record.
fn peaks() -> Vec<u64> {
    let mut rng = Rng::new(SEED);
    let mut words = Vec::new();
    for kind in SIGNALS.into_iter().cycle().take(2 * SIGNALS.len()) {
        words.extend([START, START]);
        let mut detector = PolyphaseUpsampler::new(4, 12);
        for x in signal(kind, 165, &mut rng) {
            words.extend([x.to_bits(), detector.peak_abs(x).to_bits()]);
        }
    }
    words
}

/// The file `bank`: declarations, setups and calls, each with its answer; a
/// step and a reset with every parameter's value afterwards.
fn bank() -> Vec<u64> {
    let mut rng = Rng::new(SEED);
    let mut words = Vec::new();
    for _ in 0..BANKS {
        let (declared, rate) = (params::declarations(4, &mut rng), params::rate(&mut rng));
        for d in &declared {
            let floats = [d.low, d.high, d.default, d.ms].map(f64::to_bits);
            words.extend([1, u64::from(d.id)]);
            words.extend(floats);
            words.push(d.shape as u64);
        }
        let built = bank::set_up(&declared, rate);
        let refusal = built.as_ref().err().copied().unwrap_or_default();
        words.extend([2, u64::from(rate), u64::from(refusal.number)]);
        words.push(refusal.index as u64);
        let Ok(mut built) = built else { continue };
        for _ in 0..CALLS {
            let call = params::call(&declared, &mut rng);
            let Answer { number, word } = bank::called(&mut built, &call);
            let number = u64::from(number);
            match call {
                Call::Target { id, value } => {
                    words.extend([3, u64::from(id), value.to_bits(), number]);
                }
                Call::Immediate { id, value } => {
                    words.extend([4, u64::from(id), value.to_bits(), number]);
                }
                Call::Step | Call::Reset => {
                    words.push(if call == Call::Step { 5 } else { 6 });
                    words.extend(bank::values(&built, declared.len()));
                }
                Call::Value { id } => words.extend([7, u64::from(id), number, word]),
            }
        }
    }
    words
}

#[cfg(test)]
mod tests {
    use super::*;

    #[test]
    fn leaves_cover_each_function_often_enough() {
        let words = leaves();
        let count = |op: Op| words.chunks(6).filter(|r| r[0] == op as u64).count();
        assert!(count(Op::Exp) >= 2500);
        assert!(LEAVES.into_iter().all(|op| count(op) >= EACH));
        let refused = words.chunks(6).filter(|r| r[4] == crate::leaf::REFUSED);
        assert!(refused.count() > 100);
        assert_eq!(words, leaves());
    }

    #[test]
    fn every_power_of_two_is_among_the_exp_records() {
        let words = leaves();
        let exponents: std::collections::BTreeSet<u64> = words
            .chunks(6)
            .filter(|r| r[0] == Op::Exp as u64 && r[4] == 0)
            .map(|r| r[5] >> 52)
            .collect();
        assert!((14..=1023).all(|e| exponents.contains(&e)));
    }

    /// Those of f32, from the middle between 0 and the smallest to the infinities.
    #[test]
    fn every_exponent_is_among_the_roundings() {
        let words = leaves();
        let of = |op: Op| words.chunks(6).filter(move |r| r[0] == op as u64);
        let exponents: std::collections::BTreeSet<u64> =
            of(Op::Narrow).map(|r| r[1] >> 52 & 0x7ff).collect();
        assert!((1023 - 150..=1023 + 128).all(|e| exponents.contains(&e)));
        let fields: std::collections::BTreeSet<u64> =
            of(Op::Narrow).map(|r| r[5] >> 23 & 0xff).collect();
        assert_eq!(fields.len(), 256);
        assert!(of(Op::Widen).count() >= EACH);
    }

    #[test]
    fn peaks_start_marks_cannot_be_mistaken() {
        let words = peaks();
        let marks = words.chunks(2).filter(|r| r[1] == START).count();
        assert_eq!(marks, 2 * SIGNALS.len());
        assert!(words.chunks(2).all(|r| (r[0] == START) == (r[1] == START)));
        assert_eq!(words, peaks());
    }

    /// The records of `bank`, each without the values behind a step or a reset.
    fn bank_records(words: &[u64]) -> Vec<&[u64]> {
        let (mut records, mut at, mut count) = (Vec::new(), 0, 0);
        while at < words.len() {
            let width = match words[at] {
                1 => 7,
                5 | 6 => 1,
                _ => 4,
            };
            let record = &words[at..at + width];
            count = match record[0] {
                // A parameter more, in the place of the bank before.
                1 if records.last().is_none_or(|r: &&[u64]| r[0] != 1) => 1,
                1 => count + 1,
                2 if at == 0 || records.last().is_some_and(|r| r[0] != 1) => 0,
                _ => count,
            };
            records.push(record);
            at += width + if width == 1 { count } else { 0 };
        }
        records
    }

    #[test]
    fn bank_has_every_call_shape_and_refusal() {
        let words = bank();
        assert!(8 * words.len() < 300_000);
        let records = bank_records(&words);
        let count = |keep: &dyn Fn(&[u64]) -> bool| records.iter().filter(|r| keep(r)).count();
        assert_eq!(count(&|r| r[0] == 2), BANKS);
        for shape in 0..3 {
            assert!(count(&|r| r[0] == 1 && r[6] == shape) > 50);
        }
        for op in 3..8 {
            assert!(count(&|r| r[0] == op) > 100, "{op}");
        }
        for number in 1..7 {
            assert!(count(&|r| r[0] == 2 && r[2] == number) > 1, "{number}");
        }
        assert!(count(&|r| (r[0] == 3 || r[0] == 4) && r[3] == 23) > 20);
        assert!(count(&|r| (r[0] == 3 || r[0] == 4) && r[3] == 24) > 20);
        assert_eq!(words, bank());
    }
}
