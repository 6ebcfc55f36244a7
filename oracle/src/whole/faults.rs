//! What is done to a call before it is played: lengths that are wrong, bytes
//! that are no state, and states and stores that were changed from outside.

use crate::calls::{floats, words, Call, Lent, DETECTOR, MARKS, ROW, STATE, STORES, WEIGHTS};
use crate::layout::{smoother, state};
use crate::model::detector::TAPS;
use crate::model::keeper::MOST_FRAMES;
use crate::model::setup::CHANNELS;
use crate::model::state::State;
use crate::numbers::{any, near, not_finite};
use crate::rng::Rng;
use crate::{rings, tables, twelves};

/// One change. Places are taken round at the length of what they are in, so
/// that a fault means something on every limiter.
#[derive(Clone, Debug, PartialEq)]
pub enum Fault {
    StateLength {
        by: i64,
    },
    StateWord {
        at: usize,
        word: u64,
    },
    StateAdd {
        at: usize,
        by: i64,
    },
    StateBit {
        at: usize,
    },
    AudioLength {
        by: i64,
    },
    /// The same bytes as samples of the other type.
    AudioType,
    StoreLength {
        which: usize,
        by: i64,
    },
    StoreWord {
        which: usize,
        at: usize,
        word: u64,
    },
    StoreAdd {
        which: usize,
        at: usize,
        by: i64,
    },
    StoreBit {
        which: usize,
        at: usize,
        bit: u32,
    },
    StoreSwap {
        which: usize,
        at: usize,
    },
    /// The next place's word.
    StoreCopy {
        which: usize,
        at: usize,
    },
    /// So many frames taken, the marks as far behind them as they were.
    Late {
        frame: u64,
    },
    /// Another ring that is in order.
    Ring {
        seed: u64,
    },
    /// Weights at the edge of a clause of their rule.
    Weights {
        seed: u64,
    },
    /// No weights but anything, as a setup finds them that fills them.
    Unread {
        seed: u64,
    },
    /// Another floor in the row, with a tally that stays true.
    Floor {
        at: usize,
        floor: f64,
    },
    /// Other samples that the detector remembers.
    Twelves {
        seed: u64,
    },
    /// Other channels that do not count.
    LeftOut {
        left_out: u32,
    },
}

/// Words of the state that something judges or uses.
const USED: u64 = state::USED as u64;

/// Words of the state that hold a gain or a threshold.
const LEVELS: [usize; 5] = [
    state::GAIN,
    state::TARGET,
    state::SMOOTHER + smoother::CUR,
    state::SMOOTHER + smoother::TARGET,
    state::SMOOTHER + smoother::DELTA,
];

impl Fault {
    pub fn apply(&self, lent: &mut Lent, call: &mut Call) {
        match *self {
            Self::StateLength { by } => resize(&mut lent.state, by),
            Self::AudioLength { by } => {
                if let Some(audio) = call.audio_mut() {
                    // 8 bytes are a sample: half of them are one of 32 bits.
                    let whole = by % 8 == 0;
                    let by = if whole {
                        by / 8 * audio.format.size() as i64
                    } else {
                        by
                    };
                    resize(&mut audio.bytes, by);
                }
            }
            Self::AudioType => {
                if let Some(audio) = call.audio_mut() {
                    audio.format = audio.format.other();
                }
            }
            Self::StoreLength { which, by } => resize(&mut lent.stores.0[which], by),
            Self::StateWord { .. } | Self::StateAdd { .. } | Self::StateBit { .. } => {
                self.change_state(&mut lent.state);
            }
            Self::Late { .. } | Self::Ring { .. } | Self::Floor { .. } | Self::LeftOut { .. } => {
                self.forge(lent)
            }
            Self::Weights { seed } => aim(&mut lent.stores.0[WEIGHTS], seed),
            Self::Unread { seed } => unread(&mut lent.stores.0[WEIGHTS], seed),
            Self::Twelves { seed } => remember(&mut lent.stores.0[DETECTOR], seed),
            Self::StoreWord { which, .. }
            | Self::StoreAdd { which, .. }
            | Self::StoreBit { which, .. }
            | Self::StoreSwap { which, .. }
            | Self::StoreCopy { which, .. } => self.change_store(&mut lent.stores.0[which]),
        }
    }

    fn change_state(&self, state: &mut [u8]) {
        let mut change = |at: usize, new: &dyn Fn(u64) -> u64| {
            if let Some(eight) = state.get_mut(8 * at..8 * at + 8) {
                let word = words(eight)[0];
                eight.copy_from_slice(&new(word).to_le_bytes());
            }
        };
        match *self {
            Self::StateWord { at, word } => change(at, &|_| word),
            Self::StateAdd { at, by } => change(at, &|old| old.wrapping_add_signed(by)),
            Self::StateBit { at } => change(at / 64, &|old| old ^ 1 << (at % 64)),
            _ => {}
        }
    }

    fn change_store(&self, store: &mut [u64]) {
        if store.is_empty() {
            return;
        }
        let places = store.len();
        match *self {
            Self::StoreWord { at, word, .. } => store[at % places] = word,
            Self::StoreAdd { at, by, .. } => {
                let word = &mut store[at % places];
                *word = word.wrapping_add_signed(by);
            }
            Self::StoreBit { at, bit, .. } => store[at % places] ^= 1 << bit,
            Self::StoreSwap { at, .. } => store.swap(at % places, (at + 1) % places),
            Self::StoreCopy { at, .. } => store[at % places] = store[(at + 1) % places],
            _ => {}
        }
    }

    /// Changes that go together.
    fn forge(&self, lent: &mut Lent) {
        let Some(mut state) = State::read(&lent.state) else {
            return;
        };
        match *self {
            Self::Late { frame } if state.frame > 0 => {
                let later = frame.wrapping_sub(state.frame);
                let marks = lent.stores.0[MARKS].iter_mut();
                marks.for_each(|mark| *mark = mark.wrapping_add(later));
                state.frame = frame;
            }
            Self::Ring { seed } if (11..=4096).contains(&state.look) => {
                let ring = rings::ordered(state.look, &mut Rng::new(seed));
                [state.look, state.head, state.len, state.frame] = ring.state;
                lent.stores.0[MARKS] = ring.marks;
                lent.stores.0[2] = ring.minima.iter().map(|m| m.to_bits()).collect();
            }
            Self::Floor { at, floor } if !lent.stores.0[ROW].is_empty() => {
                let row = &mut lent.stores.0[ROW];
                let places = row.len();
                row[at % places] = floor.to_bits();
                let other = row.iter().filter(|&&w| f64::from_bits(w) != 1.0);
                state.tally = other.count() as u64;
            }
            Self::LeftOut { left_out } => state.setup.left_out = left_out,
            _ => {}
        }
        lent.state = state.bytes();
    }
}

/// Weights at the edge of a clause of their rule.
fn aim(store: &mut [u64], seed: u64) {
    let mut table = floats(store);
    tables::aim(&mut table, &mut Rng::new(seed));
    let aimed = store.iter_mut().zip(table);
    aimed.for_each(|(word, weight)| *word = weight.to_bits());
}

/// What nobody reads: any words, many of them a NaN.
pub fn unread(store: &mut [u64], seed: u64) {
    let mut rng = Rng::new(seed);
    for word in store {
        *word = match rng.below(4) {
            0 => rng.word(),
            1 => any(&mut rng).to_bits(),
            2 => not_finite(&mut rng).to_bits(),
            _ => f64::NAN.to_bits(),
        };
    }
}

/// Other samples for each channel's detector, in half of the cases the same.
fn remember(store: &mut [u64], seed: u64) {
    let mut rng = Rng::new(seed);
    let first = twelves::twelve(&mut rng);
    let alike = rng.below(2) == 0;
    for channel in store.chunks_mut(TAPS) {
        let drawn = twelves::twelve(&mut rng);
        let samples = if alike { first } else { drawn };
        let places = channel.iter_mut().zip(samples);
        places.for_each(|(word, sample)| *word = sample.to_bits());
    }
}

/// So many places more or fewer; a list is never shorter than empty.
fn resize<T: Clone + Default>(list: &mut Vec<T>, by: i64) {
    list.resize(list.len().saturating_add_signed(by as isize), T::default());
}

/// A fault that a careless host makes.
pub fn careless(rng: &mut Rng) -> Fault {
    let by = rng.pick(&[1, -1, 1, -1, 8, -8, 4096, i64::from(i32::MIN)]);
    match rng.below(10) {
        0 | 1 => Fault::StateLength { by },
        2 | 3 => not_a_state(rng),
        4..=6 => Fault::AudioLength { by },
        _ => Fault::StoreLength {
            which: rng.below(STORES.len() as u64) as usize,
            by,
        },
    }
}

/// A word that no state has.
fn not_a_state(rng: &mut Rng) -> Fault {
    let high = 1 << (32 + rng.below(32));
    let (at, word) = match rng.below(7) {
        0 => (0, rng.word()),
        1 => {
            let id = state::SMOOTHER + smoother::ID;
            (rng.pick(&[state::RATE, id, state::BANK_RATE]), high)
        }
        2 => {
            let shape = state::SMOOTHER + smoother::SHAPE;
            (shape, 3 + (rng.word() >> rng.below(63)))
        }
        3 => (state::READY, 2 + (rng.word() >> rng.below(63))),
        4 => {
            return Fault::StateBit {
                at: rng.below(64) as usize,
            }
        }
        5 => (state::LEFT_OUT, beyond(rng)),
        _ => return room(rng),
    };
    Fault::StateWord { at, word }
}

/// A word of the state behind those that hold something.
fn room(rng: &mut Rng) -> Fault {
    let room = state::WORDS - state::USED;
    Fault::StateWord {
        at: state::USED + rng.below(room as u64) as usize,
        word: 1 << rng.below(64),
    }
}

/// Channels left out that there cannot be.
fn beyond(rng: &mut Rng) -> u64 {
    let any = 256 + (rng.word() >> (1 + rng.below(55)));
    rng.pick(&[256, 257, 511, 1 << 32, 1 << 63, u64::MAX, any])
}

/// Other channels that do not count: any of them, or one other; or words that no
/// state has, there and behind.
fn unlinked(rng: &mut Rng) -> Fault {
    match rng.below(6) {
        0 => Fault::LeftOut {
            left_out: rng.below(1 << CHANNELS) as u32,
        },
        1..=3 => Fault::StateBit {
            at: 64 * state::LEFT_OUT + rng.below(CHANNELS as u64) as usize,
        },
        4 => Fault::StateWord {
            at: state::LEFT_OUT,
            word: beyond(rng),
        },
        _ => room(rng),
    }
}

/// A change of state or stores, aimed at what 18, 19 and 22 judge and at what
/// they leave free.
pub fn damage(rng: &mut Rng) -> Fault {
    match rng.below(18) {
        0 => Fault::StateBit {
            at: rng.below(8 * STATE as u64) as usize,
        },
        1 => Fault::StateBit {
            at: rng.below(64 * USED) as usize,
        },
        2..=4 => Fault::StateAdd {
            at: rng.below(USED) as usize,
            by: rng.pick(&[1, -1, 1, -1, 2, 32, -32, 1 << 32, 1 << 40]),
        },
        5 | 6 => {
            let at = rng.below(USED) as usize;
            let word = word(state::is_float(at), rng);
            Fault::StateWord { at, word }
        }
        7 => Fault::StateWord {
            at: rng.pick(&LEVELS),
            word: level(rng).to_bits(),
        },
        8 => Fault::Late { frame: late(rng) },
        9 => Fault::Ring { seed: rng.word() },
        10 => Fault::Floor {
            at: rng.word() as u32 as usize,
            floor: level(rng),
        },
        11 | 12 => unlinked(rng),
        _ => store_damage(rng),
    }
}

fn store_damage(rng: &mut Rng) -> Fault {
    let which = rng.below(STORES.len() as u64) as usize;
    let at = rng.word() as u32 as usize;
    match rng.below(7) {
        0 => Fault::StoreBit {
            which,
            at,
            bit: rng.below(64) as u32,
        },
        1 => Fault::StoreAdd {
            which,
            at,
            by: rng.pick(&[1, -1, 2, -2]),
        },
        2 => Fault::StoreSwap { which, at },
        3 => Fault::StoreCopy { which, at },
        4 => Fault::StoreWord {
            which,
            at,
            word: level(rng).to_bits(),
        },
        _ => Fault::StoreWord {
            which,
            at,
            word: word(which != MARKS, rng),
        },
    }
}

/// Damaged weights, which setup alone judges: beside the rule's limits too.
pub fn weights(rng: &mut Rng) -> Fault {
    let (which, at) = (WEIGHTS, rng.word() as u32 as usize);
    match rng.below(4) {
        0 => {
            let word = level(rng).to_bits();
            Fault::StoreWord { which, at, word }
        }
        1 => {
            let bit = rng.below(64) as u32;
            Fault::StoreBit { which, at, bit }
        }
        2 => Fault::Weights { seed: rng.word() },
        _ => {
            let by = rng.below(20_000) as i64 - 10_000;
            Fault::StoreAdd { which, at, by }
        }
    }
}

/// Any word, of a kind that suits.
fn word(float: bool, rng: &mut Rng) -> u64 {
    match rng.below(4) {
        0 => rng.word() >> rng.below(64),
        _ if float => any(rng).to_bits(),
        1 => rng.below(20),
        2 => rng.pick(&[0, 1, 11, 4096, 4097, 65_536, MOST_FRAMES, u64::MAX]),
        _ => rng.below(5_000),
    }
}

/// A float at or between the ends that gains and thresholds have, or beside.
fn level(rng: &mut Rng) -> f64 {
    match rng.below(8) {
        0 => rng.pick(&[0.0, -0.0, 1.0, -30.0, 0.5]),
        1 => {
            let end = rng.pick(&[0.0, 1.0, -30.0]);
            near(rng, end, 1)
        }
        2 => not_finite(rng),
        3 => -30.0 * rng.unit(),
        _ => rng.unit(),
    }
}

/// Frames taken, close to all that there are.
fn late(rng: &mut Rng) -> u64 {
    match rng.below(4) {
        0 => MOST_FRAMES - rng.below(3),
        1 => MOST_FRAMES + rng.below(3),
        2 => MOST_FRAMES - rng.below(200),
        _ => 1 + rng.below(MOST_FRAMES),
    }
}
