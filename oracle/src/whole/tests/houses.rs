//! House tables: every rate is drawn, every rule is met, and a side that has
//! another one is found.

use super::*;
use crate::calls::STATE;
use crate::model::house::{place, table, PAIRS};
use crate::model::judge::stores_fit;
use crate::model::setup::Setup;
use crate::model::state::State;
use crate::model::weights::accepted;
use crate::whole::asked::Houses;

/// About one session in five, and of each rate alike.
#[test]
fn every_rate_is_drawn() {
    for settings in [WHOLE, DIRECT, DAMAGE] {
        let mut houses = Houses::default();
        for number in 0..1_000 {
            houses.begin(&drawn(&settings, number));
        }
        assert!(houses.sessions.iter().all(|&n| n > 30), "{houses:?}");
        let all: u64 = houses.sessions.iter().sum();
        assert!((180..260).contains(&all), "{houses:?}");
    }
}

/// A lookahead that is rounded to the look is as good as 1.5 ms.
#[test]
fn sessions_have_a_table_by_their_look() {
    let sessions = (0..400).map(|number| drawn(&WHOLE, number));
    let houses: Vec<Session> = sessions.filter(|s| s.house).collect();
    let usual = |s: &&Session| s.setup.lookahead == 1.5;
    let count = houses.iter().filter(usual).count();
    assert!(count > 20 && houses.len() > count + 20);
    let fits = |s: &Session| place(s.setup.rate, look(s.setup.lookahead, s.setup.rate)).is_some();
    assert!(houses.iter().all(fits));
}

#[test]
fn every_rule_is_met() {
    for (settings, sessions) in [(WHOLE, 200), (DIRECT, 200), (DAMAGE, 200)] {
        let settings = Settings {
            sessions,
            ..settings
        };
        let counts = all(&settings, Some(model)).expect("no difference");
        for row in Houses::names() {
            let met = counts.houses.met(row);
            assert!(met > 2, "{row}: {settings:?} {:?}", counts.houses);
        }
        let line = counts.houses.line();
        assert!(line.starts_with("house tables: sessions "), "{line}");
    }
}

/// Rate and look of a setup that asks for a house table.
fn asks(call: &Call) -> Option<(u32, u64)> {
    match call {
        Call::Setup {
            setup, house: true, ..
        } => Some((setup.rate, look(setup.lookahead, setup.rate))),
        _ => None,
    }
}

/// The model, but for setups that ask and are refused by a number: a rule of ours
/// says which one is told.
fn renumbered(lent: &mut Lent, call: &mut Call, rule: fn((u32, u64), u32) -> u32) -> u32 {
    let number = model(lent, call);
    match asks(call).map(|pair| rule(pair, number)) {
        Some(other) if number != 0 && other != number => {
            lent.tell(&[]);
            other
        }
        _ => number,
    }
}

/// There is a table of every rate that has one.
fn by_rate(lent: &mut Lent, call: &mut Call) -> u32 {
    renumbered(lent, call, |(rate, _), number| {
        let has = PAIRS.iter().any(|pair| pair.0 == rate);
        number * u32::from(number != 29 || !has)
    })
}

/// There is a table of every look that has one.
fn by_look(lent: &mut Lent, call: &mut Call) -> u32 {
    renumbered(lent, call, |(_, look), number| {
        let has = PAIRS.iter().any(|pair| pair.1 == look);
        number * u32::from(number != 29 || !has)
    })
}

/// The cap is judged behind the table.
fn before_the_cap(lent: &mut Lent, call: &mut Call) -> u32 {
    renumbered(lent, call, |(rate, look), number| {
        let lacks = place(rate, look).is_none();
        match number {
            15 if lacks => 29,
            number => number,
        }
    })
}

/// The lengths of the state, or of the stores, are judged before the table.
fn behind_lengths(lent: &mut Lent, call: &mut Call, fits: fn(&Lent, &Setup) -> bool) -> u32 {
    let judged = match call {
        Call::Setup { setup, .. } => fits(lent, setup),
        _ => true,
    };
    let number = model(lent, call);
    if number == 29 && !judged {
        16
    } else {
        number
    }
}

fn behind_the_states(lent: &mut Lent, call: &mut Call) -> u32 {
    behind_lengths(lent, call, |lent, _| lent.state.len() == STATE)
}

fn behind_the_stores(lent: &mut Lent, call: &mut Call) -> u32 {
    behind_lengths(lent, call, |lent, setup| {
        let look = look(setup.lookahead, setup.rate);
        stores_fit(setup.channels as u64, look, &lent.stores)
    })
}

/// What the weights held is judged.
fn judging(lent: &mut Lent, call: &mut Call) -> u32 {
    let held = floats(&lent.stores.0[WEIGHTS]);
    let (before, number) = (lent.stores.clone(), model(lent, call));
    if number == 0 && asks(call).is_some() && !accepted(&held) {
        lent.state = State::NEVER.bytes();
        lent.stores = before;
        return 17;
    }
    number
}

/// The model, with weights of ours after a setup that finished.
fn filled(lent: &mut Lent, call: &mut Call, with: fn(&Call, &mut [u64], &[u64])) -> u32 {
    let held = lent.stores.0[WEIGHTS].clone();
    let number = model(lent, call);
    if number == 0 && matches!(call, Call::Setup { .. }) {
        with(call, &mut lent.stores.0[WEIGHTS], &held);
    }
    number
}

/// A table that is asked for is not filled in.
fn unfilled(lent: &mut Lent, call: &mut Call) -> u32 {
    filled(lent, call, |_, weights, held| {
        weights.copy_from_slice(held);
    })
}

/// A table that is not asked for is.
fn generous(lent: &mut Lent, call: &mut Call) -> u32 {
    filled(lent, call, |call, weights, _| {
        let Call::Setup { setup, .. } = call else {
            return;
        };
        let table = table(setup.rate, look(setup.lookahead, setup.rate));
        let places = weights.iter_mut().zip(table.unwrap_or_default());
        places.for_each(|(word, weight)| *word = weight.to_bits());
    })
}

/// The last bit of the last table's last weight is another.
fn misread(lent: &mut Lent, call: &mut Call) -> u32 {
    filled(lent, call, |call, weights, _| {
        if asks(call) == Some((192_000, 288)) {
            weights[276] ^= 1;
        }
    })
}

/// The weights are filled before all is judged.
fn hasty(lent: &mut Lent, call: &mut Call) -> u32 {
    let number = model(lent, call);
    if number == 16 && asks(call).is_some() {
        let weights = lent.stores.0[WEIGHTS].iter_mut();
        weights.for_each(|word| *word = 0);
    }
    number
}

/// There is said to be a table where the lower half of a look has one.
fn narrow(lent: &mut Lent, call: &mut Call) -> u32 {
    if let Call::House { look, .. } = call {
        *look &= u64::from(u32::MAX);
    }
    model(lent, call)
}

#[test]
fn other_rules_are_found() {
    for (settings, side, said) in [
        (WHOLE, by_rate as Side, "due 29, seen 0"),
        (WHOLE, by_look, "due 29, seen 0"),
        (WHOLE, before_the_cap, "due 15, seen 29"),
        (WHOLE, behind_the_states, "due 29, seen 16"),
        (WHOLE, behind_the_stores, "due 29, seen 16"),
        (WHOLE, judging, "due 0, seen 17"),
        (WHOLE, unfilled, "weights[0]"),
        (WHOLE, misread, "weights[276]"),
        (WHOLE, hasty, "weights[0]"),
        (WHOLE, narrow, "answer[0]"),
        (DIRECT, unfilled, "weights[0]"),
        (DIRECT, judging, "due 0, seen 17"),
        (DAMAGE, by_look, "due 29, seen 0"),
        (DAMAGE, generous, "weights["),
        (DAMAGE, judging, "due 0, seen 17"),
    ] {
        let settings = Settings {
            sessions: 400,
            ..settings
        };
        let (passed, text) = run(&settings, Some(side));
        assert!(!passed && text.contains(said), "{said}: {text}");
        assert!(text.lines().count() <= 6, "{text}");
    }
}
