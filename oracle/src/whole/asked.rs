//! House tables, counted: the sessions that have one, and the setups that ask for
//! one by what they met, so that a run shows which rule it met how often.

use super::plan::Session;
use crate::calls::{floats, Call, Lent, STATE, WEIGHTS};
use crate::model::house::{place, PAIRS};
use crate::model::judge::stores_fit;
use crate::model::setup::look;
use crate::model::weights::accepted;

/// A setup that asks for a house table, and what it is lent.
#[derive(Clone, Copy, Debug, PartialEq, Eq)]
pub struct Asked {
    /// There is one of its rate and look.
    fits: bool,
    /// The state has its length.
    state: bool,
    /// The stores have theirs.
    stores: bool,
    /// The weights that were there would be accepted.
    weights: bool,
}

/// Sessions by their rate, and setups by what they met.
#[derive(Clone, Debug, Default, PartialEq, Eq)]
pub struct Houses {
    pub sessions: [u64; PAIRS.len()],
    pub setups: u64,
    pub met: [u64; ROWS.len()],
}

/// Something that a setup of a number met, by name.
type Named = (&'static str, fn(u32, &Asked) -> bool);

const ROWS: [Named; 8] = [
    ("finished", |n, _| n == 0),
    ("finished over weights that 17 refuses", |n, a| {
        n == 0 && !a.weights
    }),
    ("a number before 29 without a table", |n, a| {
        n != 0 && n != 29 && !a.fits
    }),
    ("15 without a table", |n, a| n == 15 && !a.fits),
    ("29 with a store's length that 16 refuses", |n, a| {
        n == 29 && !a.stores
    }),
    ("29 with a state's length that 16 refuses", |n, a| {
        n == 29 && !a.state
    }),
    ("16 by a store's length", |n, a| n == 16 && !a.stores),
    ("16 by the state's length alone", |n, a| n == 16 && a.stores),
];

impl Asked {
    /// What a call met, before it is played, if it is a setup that asks.
    pub fn of(lent: &Lent, call: &Call) -> Option<Self> {
        let Call::Setup {
            setup, house: true, ..
        } = call
        else {
            return None;
        };
        let (channels, look) = (setup.channels as u64, look(setup.lookahead, setup.rate));
        let judged = setup.refusal() == 0;
        Some(Self {
            fits: place(setup.rate, look).is_some(),
            state: lent.state.len() == STATE,
            stores: judged && stores_fit(channels, look, &lent.stores),
            weights: accepted(&floats(&lent.stores.0[WEIGHTS])),
        })
    }
}

impl Houses {
    /// One session more, if it has a house table.
    pub fn begin(&mut self, session: &Session) {
        let setup = &session.setup;
        let at = place(setup.rate, look(setup.lookahead, setup.rate));
        if let (true, Some(at)) = (session.house, at) {
            self.sessions[at] += 1;
        }
    }

    /// One setup more, of this number.
    pub fn take(&mut self, number: u32, asked: &Asked) {
        self.setups += 1;
        let rows = self.met.iter_mut().zip(ROWS);
        rows.for_each(|(count, (_, met))| *count += u64::from(met(number, asked)));
    }

    pub fn add(&mut self, other: &Self) {
        self.setups += other.setups;
        let (sessions, met) = (self.sessions.iter_mut(), self.met.iter_mut());
        let theirs = other.sessions.iter().chain(&other.met);
        let sums = sessions.chain(met).zip(theirs);
        sums.for_each(|(sum, n)| *sum += n);
    }

    /// How often a row was met, by its name.
    #[cfg(test)]
    pub fn met(&self, row: &str) -> u64 {
        let at = ROWS.iter().position(|(name, _)| *name == row);
        self.met[at.expect("a row")]
    }

    /// The rows' names.
    #[cfg(test)]
    pub fn names() -> [&'static str; ROWS.len()] {
        ROWS.map(|(name, _)| name)
    }

    pub fn line(&self) -> String {
        let sessions = PAIRS.iter().zip(self.sessions);
        let sessions: Vec<String> = sessions
            .map(|((rate, _), n)| format!("{n} at {rate}"))
            .collect();
        let rows = ROWS.iter().zip(self.met);
        let rows: Vec<String> = rows.map(|((name, _), n)| format!("{name} {n}")).collect();
        format!(
            "house tables: sessions {}; {} setups that ask: {}\n",
            sessions.join(", "),
            self.setups,
            rows.join(", ")
        )
    }
}

#[cfg(test)]
mod tests {
    use super::*;

    #[test]
    fn counts_add_up_and_are_told() {
        let asked = Asked {
            fits: true,
            state: true,
            stores: true,
            weights: false,
        };
        let lacks = Asked {
            fits: false,
            stores: false,
            ..asked
        };
        let mut houses = Houses::default();
        for (number, asked) in [(0, asked), (29, lacks), (15, lacks), (16, asked)] {
            houses.take(number, &asked);
        }
        let mut sum = houses.clone();
        sum.add(&houses);
        assert_eq!((sum.setups, sum.met), (8, [2, 2, 2, 2, 2, 0, 0, 2]));
        let line = "house tables: sessions 0 at 44100, 0 at 48000, 0 at 96000, 0 at 192000; \
                    8 setups that ask: finished 2, finished over weights that 17 refuses 2, ";
        assert!(sum.line().starts_with(line), "{}", sum.line());
    }
}
