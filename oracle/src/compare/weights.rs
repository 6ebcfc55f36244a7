//! The weights rule: the Rust's own weights for every look, which must all be
//! accepted, and damaged tables beside the plain model.

use super::{shown, Difference, Settings};
use crate::calls::floats;
use crate::model::weights::{middle, part, sum, WHOLE};
use crate::rng::Rng;
use crate::tables::{expected, own, Tables, Tally};
use crate::{probe, shrink};

/// Every look that setup takes.
const LOOKS: std::ops::RangeInclusive<usize> = 11..=4096;

/// So many more tables are looked through for a short one where two differ.
const NEXT: usize = 20_000;

/// A number, and the look at which it was met.
#[derive(Clone, Copy)]
struct Met {
    number: f64,
    look: usize,
}

impl Met {
    fn most(&mut self, number: f64, look: usize) {
        if number > self.number {
            *self = Self { number, look };
        }
    }

    fn least(&mut self, number: f64, look: usize) {
        if number < self.number {
            *self = Self { number, look };
        }
    }
}

/// How far the Rust's own tables are from what the rule asks.
struct Figures {
    sum: Met,
    each: Met,
    mirrored: Met,
    rise: Met,
}

impl Figures {
    fn new() -> Self {
        let met = |number| Met { number, look: 0 };
        Self {
            sum: met(0.0),
            each: met(0.0),
            mirrored: met(0.0),
            rise: met(f64::INFINITY),
        }
    }

    /// A table that is accepted. Each number that is told in the end is far below
    /// 2^53, so that none is rounded.
    fn met(&mut self, table: &[f64], look: usize) {
        let off = sum(table).abs_diff(WHOLE) as f64;
        self.sum.most(off, look);
        self.each.most(off / table.len() as f64, look);
        for (p, q) in table.iter().zip(table.iter().rev()) {
            self.mirrored.most(part(*p).abs_diff(part(*q)) as f64, look);
        }
        // A rise is that of the whole parts: less than 1 off the weights' own.
        for pair in table[..=middle(table.len())].windows(2) {
            self.rise
                .least((part(pair[1]) - part(pair[0])) as f64, look);
        }
    }

    fn line(&self) -> String {
        let Self {
            sum,
            each,
            mirrored,
            rise,
        } = self;
        format!(
            "the Rust's weights for looks {} to {}, in units of 2^-60: sum at most {} off (look {}), \
             at most {:.3} x L (look {}); mirrored ones at most {} apart (look {}); \
             up to the middle each whole part at least {} above the one before (look {})",
            LOOKS.start(),
            LOOKS.end(),
            sum.number,
            sum.look,
            each.number,
            each.look,
            mirrored.number,
            mirrored.look,
            rise.number,
            rise.look
        )
    }
}

/// Every look, then damaged tables.
pub fn run(settings: &Settings) -> Result<u64, Difference> {
    let mut rng = Rng::new(settings.seed);
    let mut compared = 0;
    let mut figures = Figures::new();
    for look in LOOKS {
        compared += 1;
        let table = own(look).map_err(|e| lost(compared, look, &e))?;
        if !expected(&table) {
            return Err(lost(compared, look, "the model does not accept them"));
        }
        if differs(&table) {
            return Err(difference(compared, &table));
        }
        figures.met(&table, look);
    }
    println!("{}", figures.line());
    let tables = Tables::new().map_err(|e| lost(compared, 0, &e))?;
    let mut tally = Tally::default();
    while compared < settings.count {
        compared += 1;
        let table = tables.damaged(&mut rng);
        if differs(&table) {
            let shortest = shortest(table, &tables, &mut rng);
            return Err(difference(compared, &shortest));
        }
        tally.met(&table);
    }
    println!("{}", tally.line());
    Ok(compared)
}

/// The Rust's own weights for a look are not what they have to be.
fn lost(compared: u64, look: usize, why: &str) -> Difference {
    Difference {
        compared,
        report: format!("the Rust's weights for look {look}: {why}\n"),
    }
}

/// Whether the two verdicts on a table differ.
fn differs(table: &[f64]) -> bool {
    expected(table) != probe::weights(table)
}

/// The shortest of a table and the next that differ too: hardly a weight can be
/// left out of one without its sum, its pairs and its middle changing.
fn shortest(table: Vec<f64>, tables: &Tables, rng: &mut Rng) -> Vec<f64> {
    let next = (0..NEXT).map(|_| tables.damaged(rng));
    let others = next.filter(|t| differs(t));
    let least = others.min_by_key(Vec::len);
    least.filter(|t| t.len() < table.len()).unwrap_or(table)
}

/// What is told of a table on which the two differ, as plain as it gets.
fn difference(compared: u64, table: &[f64]) -> Difference {
    let words = table.iter().map(|w| w.to_bits()).collect();
    let small = shrink::list(words, 0, &|w| differs(&floats(w)));
    let rows: String = small
        .iter()
        .map(|&w| format!("    {}\n", shown(w)))
        .collect();
    let table = floats(&small);
    Difference {
        compared,
        report: format!(
            "smallest form, {} weights:\n{rows}  model: {}, probe: {}\n",
            table.len(),
            expected(&table),
            probe::weights(&table)
        ),
    }
}
