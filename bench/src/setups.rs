//! Setups of the proved limiter, in three ways, beside the Rust's `prepare`.

use std::hint::black_box;

use daggeryuzu::sys::{self, SetupStores, ANSWER, STATE};

use crate::clock::timed;
use crate::machines::{Ours, Setup, Theirs};
use crate::measure::{Case, Effort, Measured};

/// How ours is set up.
#[derive(Clone, Copy, Debug, PartialEq, Eq)]
pub enum Way {
    /// On stores that are lent, with the host's weights in them.
    Lent,
    /// On the same stores, the house table asked for.
    House,
    /// By the wrapper, which allocates its stores and asks for the house table.
    Wrapper,
}

impl Way {
    /// For the table.
    pub fn name(self) -> &'static str {
        match self {
            Self::Lent => "weights lent",
            Self::House => "house table",
            Self::Wrapper => "the wrapper",
        }
    }
}

/// Setups of one side before it is the next one's turn.
const TURN: usize = 50;

/// Setups of each side in a round, for a second of audio.
const A_SECOND: f64 = 1000.0;

/// Times the ways of setting a case up, in their order: ns a setup. All of them and
/// the Rust take turns; the first round warms them up and is not counted.
pub fn measure(ways: &[Way], case: &Case, effort: &Effort) -> Result<Vec<Measured>, String> {
    let mut sides = Sides::new(case)?;
    let turns = turns(effort);
    let setups = (turns * TURN) as f64;
    let mut rounds = vec![Vec::new(); ways.len()];
    for round in 0..=effort.rounds {
        let (mut our_times, mut their_time) = (vec![0.0; ways.len()], 0.0);
        for _ in 0..turns {
            for (time, way) in our_times.iter_mut().zip(ways) {
                *time += sides.ours(*way)?;
            }
            their_time += sides.theirs()?;
        }
        if round > 0 {
            for (rounds, time) in rounds.iter_mut().zip(our_times) {
                rounds.push((time / setups, their_time / setups));
            }
        }
    }
    Ok(rounds.iter().map(|rounds| Measured::of(rounds)).collect())
}

/// Turns of a round.
fn turns(effort: &Effort) -> usize {
    ((effort.seconds * A_SECOND) as usize / TURN).max(1)
}

/// All that is set up again and again.
struct Sides {
    setup: Setup,
    stores: Stores,
    /// What each setup on the stores is to leave.
    left: Left,
    theirs: Theirs<f64>,
}

impl Sides {
    /// The weights that are lent are those of a house table.
    fn new(case: &Case) -> Result<Self, String> {
        let setup = case.setup();
        let mut stores = Stores::new(case);
        stores.set_up(&setup, true)?;
        Ok(Self {
            setup,
            left: stores.left(),
            stores,
            theirs: Theirs::new(&setup)?,
        })
    }

    /// ns of a turn of ours.
    fn ours(&mut self, way: Way) -> Result<f64, String> {
        match way {
            Way::Lent => self.on_stores(false),
            Way::House => self.on_stores(true),
            Way::Wrapper => many(|| black_box(Ours::new(&self.setup)).map(drop)),
        }
    }

    /// ns of a turn on the stores, after which state and weights are compared. What the
    /// first setup of the turn is to write is overwritten before.
    fn on_stores(&mut self, house: bool) -> Result<f64, String> {
        self.stores.state.fill(7);
        if house {
            self.stores.weights.fill(f64::NAN);
        }
        let time = many(|| self.stores.set_up(&self.setup, house))?;
        if self.stores.left() != self.left {
            return Err(format!("the setups differ where house is {house}"));
        }
        Ok(time)
    }

    /// ns of a turn of the Rust.
    fn theirs(&mut self) -> Result<f64, String> {
        many(|| black_box(&mut self.theirs).prepare(&self.setup))
    }
}

/// ns that a turn takes.
fn many(mut set_up: impl FnMut() -> Result<(), String>) -> Result<f64, String> {
    let mut done = Ok(());
    let time = timed(|| done = (0..TURN).try_for_each(|_| set_up()));
    done.map(|()| time)
}

/// The state and the bits of the weights.
type Left = ([u8; STATE], Vec<u64>);

/// A state and stores, allocated once and lent to every setup.
struct Stores {
    state: [u8; STATE],
    delay: Vec<f64>,
    marks: Vec<u64>,
    minima: Vec<f64>,
    weights: Vec<f64>,
    row: Vec<f64>,
    detector: Vec<f64>,
}

impl Stores {
    /// Of a case's lengths, with no weights in them yet.
    fn new(case: &Case) -> Self {
        let l = case.look.saturating_sub(11).max(1);
        Self {
            state: [0; STATE],
            delay: vec![0.0; case.channels * case.look],
            marks: vec![0; case.look + 1],
            minima: vec![0.0; case.look + 1],
            weights: vec![f64::NAN; l],
            row: vec![0.0; l],
            detector: vec![0.0; case.channels * 12],
        }
    }

    /// Sets a limiter up, on the house table or on the weights that are there.
    fn set_up(&mut self, setup: &Setup, house: bool) -> Result<(), String> {
        let stores = SetupStores {
            delay: &mut self.delay,
            marks: &mut self.marks,
            minima: &mut self.minima,
            weights: &mut self.weights,
            row: &mut self.row,
            detector: &mut self.detector,
        };
        let (settings, spec) = setup.of_ours();
        let mut answer = [0; ANSWER];
        match sys::setup(&mut self.state, &mut answer, settings, spec, house, stores) {
            0 => Ok(()),
            number => Err(format!("ours: refused by {number}")),
        }
    }

    /// What a setup left.
    fn left(&self) -> Left {
        let weights = self.weights.iter().map(|w| w.to_bits());
        (self.state, weights.collect())
    }
}

#[cfg(test)]
mod tests {
    use super::*;

    const SHORT: Effort = Effort {
        seconds: 0.01,
        rounds: 2,
    };

    /// 1.5 ms at the highest rate.
    fn case() -> Case {
        Case {
            rate: 192_000,
            look: 288,
            ..Case::default()
        }
    }

    #[test]
    fn weights_lent_and_the_house_table_leave_the_same_state_and_weights() {
        let (case, setup) = (case(), case().setup());
        let (mut house, mut lent) = (Stores::new(&case), Stores::new(&case));
        assert_eq!(house.set_up(&setup, true), Ok(()));
        lent.state.fill(7);
        lent.weights.clone_from(&house.weights);
        assert_eq!(lent.set_up(&setup, false), Ok(()));
        assert_eq!(lent.left(), house.left());
        assert_eq!(lent.weights.len(), 277);
        assert!(lent.weights.iter().all(|w| *w > 0.0));
    }

    #[test]
    fn every_way_is_measured() {
        let ways = [Way::Lent, Way::House, Way::Wrapper];
        let seen = measure(&ways, &case(), &SHORT).expect("measured");
        assert_eq!(seen.len(), ways.len());
        for seen in seen {
            assert!(seen.ratio.low > 0.0 && seen.ratio.low <= seen.ratio.high);
        }
    }

    #[test]
    fn a_round_has_turns_by_its_seconds() {
        let of = |seconds| turns(&Effort { seconds, ..SHORT });
        assert_eq!([0.01, 4.0].map(of), [1, 80]);
    }

    #[test]
    fn other_work_is_an_error() {
        let mut sides = Sides::new(&case()).expect("set up");
        sides.stores.weights[0] = f64::NAN;
        let line = sides.ours(Way::Lent).expect_err("no weights");
        assert!(line.contains("refused by 17"), "{line}");
        sides.left.0[0] ^= 1;
        let line = sides.ours(Way::House).expect_err("another state");
        assert!(line.contains("differ"), "{line}");
    }
}
