//! The house tables: the four beside those that the running Rust computes; slices
//! of another length and other rates and looks, where nothing is written.

use std::fmt::Write as _;

use super::{shown, Difference, Settings};
use crate::houses::pair;
use crate::model::house::{place, table, PAIRS};
use crate::probe;
use crate::rng::Rng;

/// Looks that are asked of each rate one by one, and rates on either side of each
/// that are asked of each look.
const LOOKS: u64 = 400;
const BESIDE: u32 = 100;

/// Weights of all four together.
const ALL: usize = 526;

/// A rate, a look, and the weights that the lent slice has.
#[derive(Clone, Copy, Debug, PartialEq, Eq)]
struct Case {
    rate: u32,
    look: u64,
    length: usize,
}

/// What is told, and the slice's bits.
type Answer = (u32, Vec<u64>);

/// The plain cases, then random ones. Those are small as they are.
pub fn run(settings: &Settings) -> Result<u64, Difference> {
    let mut rng = Rng::new(settings.seed);
    let (mut tally, mut compared) = (Tally::default(), 0);
    for case in plain() {
        case.check(&mut compared, &mut tally)?;
    }
    while compared < settings.count {
        Case::drawn(&mut rng).check(&mut compared, &mut tally)?;
    }
    println!("{}", tally.line());
    Ok(compared)
}

/// Every table at its length and others; each rate with looks one after the other
/// and one whose lower half has a table, each look with rates about each of the four.
fn plain() -> Vec<Case> {
    let mut cases = Vec::new();
    for (rate, look) in PAIRS {
        let own = Case::own(rate, look);
        let lengths = [own.length - 1, own.length, own.length + 1, 0, 1, ALL];
        cases.extend(lengths.map(|length| Case { length, ..own }));
        cases.extend(PAIRS.map(|(_, other)| Case {
            length: Case::own(rate, other).length,
            ..own
        }));
        cases.extend((0..=LOOKS).map(|look| Case::own(rate, look)));
        let high = look | 1 << 32;
        cases.push(Case { look: high, ..own });
        let rates = PAIRS.iter().flat_map(|p| p.0 - BESIDE..=p.0 + BESIDE);
        cases.extend(rates.map(|rate| Case::own(rate, look)));
    }
    cases
}

impl Case {
    /// With the length that the weights of such a look have.
    fn own(rate: u32, look: u64) -> Self {
        let length = look.clamp(12, 4_107) as usize - 11;
        Self { rate, look, length }
    }

    fn drawn(rng: &mut Rng) -> Self {
        let (rate, look) = pair(rng);
        let own = Self::own(rate, look);
        let length = match rng.below(8) {
            0 => own.length + 1,
            1 => own.length - 1,
            2 => Self::own(rate, rng.pick(&PAIRS).1).length,
            3 => rng.below(600) as usize,
            _ => own.length,
        };
        Self { length, ..own }
    }

    /// A slice that holds no weights: NaN of unlike payloads.
    fn lent(&self) -> Vec<f64> {
        let nan = |at| f64::from_bits(f64::NAN.to_bits() | (at as u64 + 1));
        (0..self.length).map(nan).collect()
    }

    /// The Rust's weights where there is a table of this length, else what was lent.
    fn due(&self) -> Answer {
        let table = table(self.rate, self.look).filter(|t| t.len() == self.length);
        match table {
            Some(table) => (1, bits(table)),
            None => (0, bits(&self.lent())),
        }
    }

    fn probe(&self) -> Answer {
        let mut weights = self.lent();
        let told = probe::house(self.rate, self.look, &mut weights);
        (told, bits(&weights))
    }

    /// Compare one case and count it.
    fn check(&self, compared: &mut u64, tally: &mut Tally) -> Result<(), Difference> {
        *compared += 1;
        let (due, seen) = (self.due(), self.probe());
        if due != seen {
            return Err(Difference {
                compared: *compared,
                report: self.report(&due, &seen),
            });
        }
        tally.met(self, due.0);
        Ok(())
    }

    fn report(&self, due: &Answer, seen: &Answer) -> String {
        let Self { rate, look, length } = self;
        let mut text =
            format!("smallest form:\n  rate {rate}, look {look}, {length} weights lent\n");
        let _ = writeln!(text, "    told: due {}, probe {}", due.0, seen.0);
        let mut pairs = due.1.iter().zip(&seen.1);
        if let Some(at) = pairs.position(|(p, q)| p != q) {
            let (p, q) = (shown(due.1[at]), shown(seen.1[at]));
            let _ = writeln!(text, "    weights[{at}]: due {p}, probe {q}");
        }
        text
    }
}

fn bits(weights: &[f64]) -> Vec<u64> {
    weights.iter().map(|w| w.to_bits()).collect()
}

/// What was filled, and why the others were left alone.
#[derive(Debug, Default, PartialEq, Eq)]
struct Tally {
    filled: [u64; PAIRS.len()],
    length: u64,
    rate: u64,
    look: u64,
    both: u64,
}

impl Tally {
    fn met(&mut self, case: &Case, told: u32) {
        let Case { rate, look, .. } = *case;
        let rates = PAIRS.iter().any(|pair| pair.0 == rate);
        let looks = PAIRS.iter().any(|pair| pair.1 == look);
        match (place(rate, look), rates, looks) {
            (Some(at), ..) if told == 1 => self.filled[at] += 1,
            (Some(_), ..) => self.length += 1,
            (None, true, _) => self.look += 1,
            (None, false, true) => self.rate += 1,
            (None, false, false) => self.both += 1,
        }
    }

    fn line(&self) -> String {
        let filled = PAIRS.iter().zip(self.filled);
        let filled: Vec<String> = filled
            .map(|((rate, _), n)| format!("{rate}: {n}"))
            .collect();
        format!(
            "house tables: filled {}; left alone {} slices of another length, {} with another look, \
             {} with another rate, {} with neither",
            filled.join(", "),
            self.length,
            self.look,
            self.rate,
            self.both
        )
    }
}

#[cfg(test)]
mod tests {
    use super::*;

    /// By the plain cases and, in the same way, by few random ones.
    #[test]
    fn every_table_is_met_and_missed() {
        let mut rng = Rng::new(1);
        let random = (0..2_000).map(|_| Case::drawn(&mut rng)).collect();
        for (cases, least) in [(plain(), 1), (random, 10)] {
            let mut tally = Tally::default();
            cases.iter().for_each(|case| tally.met(case, case.due().0));
            assert!(tally.filled.iter().all(|&n| n >= least), "{tally:?}");
            let others = [tally.length, tally.rate, tally.look];
            assert!(others.iter().all(|&n| n > 20), "{tally:?}");
        }
    }

    #[test]
    fn a_slice_is_filled_at_its_length_alone() {
        for (rate, look) in PAIRS {
            let own = Case::own(rate, look);
            let (told, filled) = own.due();
            assert_eq!((told, filled.len()), (1, look as usize - 11));
            for length in [0, own.length - 1, own.length + 1] {
                let other = Case { length, ..own };
                assert_eq!(other.due(), (0, bits(&other.lent())));
            }
        }
    }
}
