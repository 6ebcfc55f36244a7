//! The weights that a host lends: those that the wrapper computes are taken at every
//! look, and a table that sums up but is lopsided or rises late is refused by 17.

use daggeryuzu::sys::{self, SetupStores, STATE};
use daggeryuzu::{Limiter, LimiterSettings, ProcessSpec};

/// A rate that has no house table.
const SPEC: ProcessSpec = ProcessSpec {
    sample_rate: 8_000,
    channels: 1,
    max_block: 64,
    max_memory: None,
};

/// Look 16, five weights.
const LOOK: usize = 16;

fn looking(look: usize) -> LimiterSettings {
    LimiterSettings::default().lookahead_ms(look as f64 / 8.0)
}

#[test]
fn the_wrappers_weights_are_taken_at_every_look() {
    for look in 11..=4096 {
        let limiter = Limiter::prepare(looking(look), SPEC).expect("set up");
        assert_eq!(limiter.latency(), look);
        assert!(!limiter.has_house_weights(), "{look}");
    }
}

/// Weights that are taken.
const GOOD: [f64; 5] = [0.125, 0.1875, 0.375, 0.1875, 0.125];

/// Sets a limiter up on stores full of 7: what was answered, and whether the other
/// stores stayed. The weights always do.
fn set_up_on_sevens(state: &mut [u8], weights: &[f64]) -> (u32, bool) {
    let (mut delay, mut marks, mut minima) = ([7.0; LOOK], [7; LOOK + 1], [7.0; LOOK + 1]);
    let (mut row, mut detector) = ([7.0; 5], [7.0; 12]);
    let mut lent = weights.to_vec();
    let stores = SetupStores {
        delay: &mut delay,
        marks: &mut marks,
        minima: &mut minima,
        weights: &mut lent,
        row: &mut row,
        detector: &mut detector,
    };
    let number = sys::setup(state, &mut [], looking(LOOK), SPEC, false, stores);
    assert_eq!(lent, weights);
    let floats = [&delay[..], &minima, &row, &detector].concat();
    let stayed = floats.iter().all(|&x| x == 7.0) && marks == [7; LOOK + 1];
    (number, stayed)
}

/// What a setup with these weights answers to a limiter that is set up. A refused
/// one leaves the stores as they were, and no limiter.
fn set_up(weights: &[f64]) -> u32 {
    let mut state = [0; STATE];
    assert_eq!(set_up_on_sevens(&mut state, &GOOD), (0, false));
    assert_eq!(sys::parameter(&state, &mut [], 0), 0);
    let (number, stayed) = set_up_on_sevens(&mut state, weights);
    let refused = number != 0;
    assert_eq!(stayed, refused);
    let after = sys::parameter(&state, &mut [], 0);
    assert_eq!(after, if refused { 18 } else { 0 });
    number
}

#[test]
fn lopsided_and_late_rising_weights_are_refused() {
    // Between 2^-8 and 2^-7 neighbours are one part of 2^-60 apart.
    let (least, part) = (1.0 / 256.0, 1.0 / (1u64 << 60) as f64);
    let ends = |more: f64| [least, 0.25, 0.4921875, 0.25, least + more * part];
    assert_eq!(set_up(&ends(0.0)), 0);
    assert_eq!(set_up(&ends(2560.0)), 0);
    assert_eq!(set_up(&ends(2561.0)), 17, "the sum");
    let level = |more: f64| {
        let mut weights = ends(more);
        weights[2] -= 4096.0 * part;
        weights
    };
    assert_eq!(set_up(&level(4096.0)), 0);
    assert_eq!(set_up(&level(4097.0)), 17, "the mirror");
    let mut turned = level(4097.0);
    turned.reverse();
    assert_eq!(set_up(&turned), 17, "the mirror, the first being larger");
    assert_eq!(set_up(&[0.125, 0.25, 0.25, 0.25, 0.125]), 17, "the middle");
    assert_eq!(set_up(&[0.2; 5]), 17, "no rise");
    assert_eq!(set_up(&[0.25, 0.125, 0.25, 0.125, 0.25]), 17, "a fall");
}
