//! House tables: sessions that have one, and setups beside them that ask for one.

use super::answer;
use crate::calls::{STORES, WEIGHTS};
use crate::houses::pair;
use crate::model::calls::{needed, BANK_BYTES};
use crate::model::house::{place, LOOKAHEAD, PAIRS};
use crate::model::setup::{look, Setup};
use crate::numbers::uniform;
use crate::rng::Rng;
use crate::setups;
use crate::whole::faults::{weights, Fault};
use crate::whole::plan::{Part, Turn};

/// A session's setup, one time in four brought to a rate and look that have a
/// house table, and whether it asks for one: most do that can.
pub fn settled(setup: Setup, rng: &mut Rng) -> (Setup, bool) {
    let setup = match rng.below(4) {
        0 => {
            let pair = rng.pick(&PAIRS);
            at(setup, pair, rng)
        }
        _ => setup,
    };
    let (_, look) = own(&setup);
    let asks = rng.below(8) > 0;
    (setup, asks && place(setup.rate, look).is_some())
}

/// Rate and look of a setup.
fn own(setup: &Setup) -> (u32, u64) {
    (setup.rate, look(setup.lookahead, setup.rate))
}

/// The setup at this rate and look, where a lookahead has them. A house table is
/// that of its look, whichever lookahead is rounded to it.
pub fn at(setup: Setup, (rate, look): (u32, u64), rng: &mut Rng) -> Setup {
    let frames = look as f64 + uniform(rng, -0.49, 0.49);
    let usual = rng.below(2) == 0 && place(rate, look).is_some();
    Setup {
        rate,
        lookahead: if usual {
            LOOKAHEAD
        } else {
            frames * 1e3 / f64::from(rate)
        },
        ..setup
    }
}

/// The turns with some more among them that are about house tables.
pub fn with_houses(mut turns: Vec<Turn>, setup: &Setup, rng: &mut Rng) -> Vec<Turn> {
    for _ in 0..rng.below(8) {
        let (part, faults) = match rng.below(4) {
            0 => {
                let (rate, look) = pair(rng);
                (Part::House { rate, look }, Vec::new())
            }
            _ => asking(setup, rng),
        };
        let turn = Turn {
            part,
            faults,
            answer: answer(rng),
        };
        turns.insert(rng.below(turns.len() as u64 + 1) as usize, turn);
    }
    turns
}

/// A setup beside a session that asks for a house table, over weights that 17
/// would mostly refuse.
pub fn asking(session: &Setup, rng: &mut Rng) -> (Part, Vec<Fault>) {
    let setup = asked(session, rng);
    let (channels, (_, look)) = (setup.channels as u64, own(&setup));
    // Other looks have no bytes, and are refused before their cap is judged.
    let bytes = BANK_BYTES + needed(channels.min(8), look.clamp(11, 4_096));
    let cap = match rng.below(12) {
        0 => Some(bytes),
        1 | 2 => Some(bytes - 1),
        3 => Some(BANK_BYTES - 1),
        _ => None,
    };
    let house = true;
    (Part::Setup { setup, cap, house }, faults(rng))
}

/// The session's own setup, whose stores are lent; one that misses it by its rate
/// or its look alone; another pair, or about one; anything.
fn asked(session: &Setup, rng: &mut Rng) -> Setup {
    let (rate, look) = own(session);
    let pair = match rng.below(10) {
        0..=3 => return *session,
        4 => (rate.wrapping_add_signed(rng.pick(&[1, -1])), look),
        5 => (rng.pick(&PAIRS).0, look),
        6 => (rate, look.wrapping_add_signed(rng.pick(&[1, -1]))),
        7 | 8 => pair(rng),
        _ => return setups::setup(rng),
    };
    at(*session, pair, rng)
}

/// What stands in the weights' place and, five times in twelve, a length that 16
/// refuses.
fn faults(rng: &mut Rng) -> Vec<Fault> {
    let by = rng.pick(&[1, -1, 1, -1, 8, -8, 4_096, i64::from(i32::MIN)]);
    let which = match rng.below(2) {
        0 => WEIGHTS,
        _ => rng.below(STORES.len() as u64) as usize,
    };
    let first = match rng.below(2) {
        0 => Fault::Unread { seed: rng.word() },
        _ => weights(rng),
    };
    let more = match rng.below(12) {
        0 | 1 => vec![Fault::StoreLength { which, by }],
        2 | 3 => vec![Fault::StateLength { by }],
        4 => vec![Fault::StoreLength { which, by }, Fault::StateLength { by }],
        _ => Vec::new(),
    };
    [vec![first], more].concat()
}
