//! What the calls refuse: document 01's table, row by row.

use super::house;
use super::keeper::{Keeping, MOST_FRAMES};
use super::setup::{look, Setup};
use super::state::State;
use super::threshold::declared;
use super::weights::accepted;
use crate::audio::Audio;
use crate::bank::judged;
use crate::calls::{floats, Lent, Stores, ROW, STATE, WEIGHTS};

/// A block ends at 2^62 at the latest.
const FARTHEST: u64 = 1 << 62;

/// The most frames of a drain.
const LONGEST_DRAIN: u64 = 65_536;

/// The bank's bytes.
pub const BANK_BYTES: u64 = 80;

/// What a call tells: document 01's number, 0 where it finished, and the values
/// that go with it.
#[derive(Clone, Debug, Default, PartialEq, Eq)]
pub struct Told {
    pub number: u32,
    pub values: Vec<u64>,
}

impl Told {
    pub fn number(number: u32) -> Self {
        Self::with(number, &[])
    }

    pub fn with(number: u32, values: &[u64]) -> Self {
        Self {
            number,
            values: values.to_vec(),
        }
    }
}

/// The number of the first test that is not passed.
fn first(tests: &[(u32, &dyn Fn() -> bool)]) -> Result<(), Told> {
    match tests.iter().find(|(_, passed)| !passed()) {
        Some(&(number, _)) => Err(Told::number(number)),
        None => Ok(()),
    }
}

/// The places of each store, in order.
pub fn lengths(channels: u64, look: u64) -> [u64; 6] {
    let row = attack(look);
    [channels * look, look + 1, look + 1, row, row, channels * 12]
}

/// L: the places of the attack row.
fn attack(look: u64) -> u64 {
    (look - 11).max(1)
}

/// The limiter's bytes.
pub fn needed(channels: u64, look: u64) -> u64 {
    8 * (channels * look + 2 * (look + 1) + 2 * attack(look) + 60 * channels)
}

/// Setup: the bank's refusals, 7 to 15, 29, 16, 17. Weights that a house table
/// replaces are not judged.
pub fn setup(s: &Setup, cap: Option<u64>, house: bool, lent: &Lent) -> Result<(), Told> {
    let bank = judged(&[declared(s.threshold)]);
    if bank.number != 0 {
        return Err(Told::with(bank.number, &[bank.index as u64]));
    }
    fits(7, BANK_BYTES, cap)?;
    first(&[(s.refusal(), &|| s.refusal() == 0)])?;
    let (channels, look) = (s.channels as u64, look(s.lookahead, s.rate));
    let left = cap.map(|cap| cap - BANK_BYTES);
    fits(15, needed(channels, look), left)?;
    let state_fits = lent.state.len() == STATE;
    first(&[
        (29, &|| !house || house::place(s.rate, look).is_some()),
        (16, &|| {
            state_fits && stores_fit(channels, look, &lent.stores)
        }),
        (17, &|| house || accepted(&floats(&lent.stores.0[WEIGHTS]))),
    ])
}

fn fits(number: u32, needed: u64, cap: Option<u64>) -> Result<(), Told> {
    match cap {
        Some(cap) if needed > cap => Err(Told::with(number, &[needed, cap])),
        _ => Ok(()),
    }
}

pub fn stores_fit(channels: u64, look: u64, stores: &Stores) -> bool {
    let due = lengths(channels, look);
    let mut pairs = stores.0.iter().zip(due);
    pairs.all(|(store, due)| store.len() as u64 == due)
}

/// 18 of the limiter: settings that pass 1 to 6 and 8 to 14, derived values
/// that are theirs, and the bank that they declare.
pub fn prepared(state: &State) -> Result<(), Told> {
    let s = &state.setup;
    let passed = s.refusal() == 0
        && state.look == look(s.lookahead, s.rate)
        && state.release_coeff.to_bits() == s.release_coeff().to_bits()
        && state.ready
        && state.count == 1
        && state.bank_rate == s.rate
        && state.threshold.prepared(state.bank_rate)
        && state.threshold.declares(s.threshold);
    first(&[(18, &|| passed)])
}

/// 18 of the bank alone, for a reading. Slots past the first are empty, so that
/// none of them has its index for an id.
fn readable(state: &State) -> Result<(), Told> {
    let passed = match state.count {
        0 => true,
        1 => state.threshold.prepared(state.bank_rate),
        _ => false,
    };
    first(&[(18, &|| state.ready && passed)])
}

/// 18, then 16.
pub fn lent_fits(state: &State, lent: &Lent) -> Result<(), Told> {
    prepared(state)?;
    let channels = state.setup.channels as u64;
    first(&[(16, &|| stores_fit(channels, state.look, &lent.stores))])
}

/// 18, 16, 19.
fn ready(state: &State, lent: &Lent) -> Result<(), Told> {
    lent_fits(state, lent)?;
    first(&[(19, &|| in_order(state, &lent.stores))])
}

/// 18, 16, 19 of a gain step, which is lent four stores.
fn gain_ready(state: &State, lent: &Lent) -> Result<(), Told> {
    prepared(state)?;
    let due = lengths(0, state.look);
    let fits = |which: usize| lent.stores.0[which].len() as u64 == due[which];
    first(&[
        (16, &|| (1..=ROW).all(fits)),
        (19, &|| in_order(state, &lent.stores)),
    ])
}

/// State and stores in order; the stores that are read have their lengths.
fn in_order(state: &State, stores: &Stores) -> bool {
    let row = floats(&stores.0[ROW]);
    let unit = |x: &f64| (0.0..=1.0).contains(x);
    let tally = row.iter().filter(|x| **x != 1.0).count() as u64;
    keeping(state, stores).in_order()
        && row.iter().all(unit)
        && state.tally == tally
        && state.row_pos < row.len() as u64
        && state.delay_pos < state.look
        && state.drained <= state.look
        && unit(&state.gain)
        && unit(&state.target)
        && state.threshold.in_order()
}

/// The floor keeper of a limiter.
pub fn keeping(state: &State, stores: &Stores) -> Keeping {
    Keeping {
        state: [state.look, state.head, state.len, state.frame],
        marks: stores.0[1].clone(),
        minima: floats(&stores.0[2]),
    }
}

/// A block: 18, 16, 19, 20, 21, 22.
pub fn block(
    state: &State,
    lent: &Lent,
    position: u64,
    frames: u64,
    events: &[u64],
    audio: &Audio,
) -> Result<(), Told> {
    ready(state, lent)?;
    sized(state, state.setup.block as u64, frames, audio)?;
    let mut before = 0;
    for (index, event) in events.chunks_exact(3).enumerate() {
        let finite = f64::from_bits(event[2]).is_finite();
        if event[0] >= frames || event[0] < before || !finite {
            return Err(Told::with(21, &[index as u64]));
        }
        before = event[0];
    }
    let end = u128::from(position) + u128::from(frames);
    first(&[(22, &|| end <= u128::from(FARTHEST))])?;
    has_room(state, frames)
}

/// A drain: 18, 16, 19, 20, 22.
pub fn drain(state: &State, lent: &Lent, frames: u64, audio: &Audio) -> Result<(), Told> {
    ready(state, lent)?;
    sized(state, LONGEST_DRAIN, frames, audio)?;
    has_room(state, frames)
}

/// 20: too many frames, or audio of another length.
fn sized(state: &State, most: u64, frames: u64, audio: &Audio) -> Result<(), Told> {
    let sample = audio.format.size() as u64;
    let bytes = |frames| sample * state.setup.channels as u64 * frames;
    first(&[(20, &|| {
        frames <= most && audio.bytes.len() as u64 == bytes(frames)
    })])
}

/// 22: frames since reset.
fn has_room(state: &State, frames: u64) -> Result<(), Told> {
    first(&[(22, &|| state.frame + frames <= MOST_FRAMES)])
}

/// A gain step: 18, 16, 19, 22.
pub fn gain_step(state: &State, lent: &Lent) -> Result<(), Told> {
    gain_ready(state, lent)?;
    has_room(state, 1)
}

/// A reading: 18 of the bank, 24.
pub fn reading(state: &State, id: u32) -> Result<(), Told> {
    readable(state)?;
    known(state, id)
}

/// A parameter call: 18, 23, 24.
pub fn parameter(state: &State, id: u32, bits: u64) -> Result<(), Told> {
    prepared(state)?;
    if !f64::from_bits(bits).is_finite() {
        return Err(Told::with(23, &[u64::from(id), bits]));
    }
    known(state, id)
}

/// 24: an id that the bank does not count.
fn known(state: &State, id: u32) -> Result<(), Told> {
    first(&[(24, &|| u64::from(id) < state.count)])
}
