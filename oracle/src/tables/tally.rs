//! What is due of a table, and what a run of them met.

use crate::model::weights::{
    accepted, middle, mirrored, part, ranged, rising, slack, sum, summed, APART, WHOLE,
};

/// The most weights that are judged; more are not accepted.
const MOST: usize = 4096;

/// Whether a table is to be accepted.
pub fn expected(table: &[f64]) -> bool {
    short(table) && accepted(table)
}

fn short(table: &[f64]) -> bool {
    table.len() <= MOST
}

/// Something that a table is or is not, by name.
type Named = (&'static str, fn(&[f64]) -> bool);

/// What has to hold.
pub const CLAUSES: [Named; 5] = [
    ("length", short),
    ("range", ranged),
    ("sum", summed),
    ("mirrored", mirrored),
    ("rise", rising),
];

/// What is only just accepted.
const LIMITS: [Named; 3] = [
    ("the sum at its limit", at_sum),
    ("a pair 4096 apart", at_apart),
    ("a last place up at the middle", at_rise),
];

fn at_sum(table: &[f64]) -> bool {
    sum(table).abs_diff(WHOLE) == slack(table.len())
}

fn at_apart(table: &[f64]) -> bool {
    let mut pairs = table.iter().zip(table.iter().rev());
    pairs.any(|(&p, &q)| part(p).abs_diff(part(q)) == APART)
}

fn at_rise(table: &[f64]) -> bool {
    let at = middle(table.len());
    at > 0 && table[at].to_bits() - table[at - 1].to_bits() == 1
}

/// The place in `CLAUSES` of the one that a table breaks, if it is one alone.
pub fn alone(table: &[f64]) -> Option<usize> {
    // Whole parts are told of these, and of a zero without its sign.
    if !table.iter().all(|w| (0.0..2.0).contains(w)) {
        return None;
    }
    let table: Vec<f64> = table.iter().map(|w| w.abs()).collect();
    let broken = |&at: &usize| !CLAUSES[at].1(&table);
    let mut broken = (0..CLAUSES.len()).filter(broken);
    broken.next().filter(|_| broken.next().is_none())
}

/// How many tables were accepted or refused, and how closely.
#[derive(Debug, Default)]
pub struct Tally {
    pub accepted: u64,
    pub at_limit: [u64; LIMITS.len()],
    pub refused: u64,
    pub alone: [u64; CLAUSES.len()],
}

impl Tally {
    pub fn met(&mut self, table: &[f64]) {
        if expected(table) {
            self.accepted += 1;
            for (count, (_, at)) in self.at_limit.iter_mut().zip(LIMITS) {
                *count += u64::from(at(table));
            }
        } else {
            self.refused += 1;
            if let Some(clause) = alone(table) {
                self.alone[clause] += 1;
            }
        }
    }

    #[cfg(feature = "probe")]
    pub fn line(&self) -> String {
        let told = |names: &[Named], counts: &[u64]| {
            let pairs = names.iter().zip(counts);
            let texts: Vec<String> = pairs.map(|((n, _), c)| format!("{n} {c}")).collect();
            texts.join(", ")
        };
        format!(
            "damaged tables: {} accepted, of them with {}; {} refused, of them by one clause alone: {}",
            self.accepted,
            told(&LIMITS, &self.at_limit),
            self.refused,
            told(&CLAUSES, &self.alone)
        )
    }
}
