//! Draws sessions at random.

mod bends;
mod events;
mod houses;
mod linking;
mod settings;

use super::faults::{careless, damage, weights, Fault};
use super::plan::{Block, Part, Session, Turn, LARGEST};
use crate::audio::{Format, Types};
use crate::calls::ANSWER;
use crate::model::calls::{needed, BANK_BYTES};
use crate::model::setup::{look, Setup};
use crate::numbers::{any, not_finite};
use crate::rng::Rng;
use crate::setups;
use crate::signals::{Signal, SIGNALS};
use bends::{bend, remembered};
use events::{events, gain, short_gain, spoil, value};
use houses::{asking, settled, with_houses};
use linking::{of_session, with_choices};
use settings::{accepted, threshold};

/// What sessions are for: every call as a host may make it; the same with more
/// frames, played without the model; states and stores that were changed from
/// outside; a file of recorded sessions.
#[derive(Clone, Copy, Debug, PartialEq, Eq)]
pub enum Mode {
    Whole,
    Direct,
    Damage,
    Recorded,
}

/// Damaged calls of a session of that mode.
pub const DAMAGED: u64 = 64;

/// Kinds that most sessions have: near full scale at most, but for a sample
/// here and there that is no number.
const USUAL: [Signal; 8] = [
    Signal::Silence,
    Signal::Speech,
    Signal::Square,
    Signal::Alternating,
    Signal::Impulses,
    Signal::Overdriven,
    Signal::Subnormal,
    Signal::Damaged,
];

/// The last is where outputs become silence, so that a square wave lies on it.
const LEVELS: [f64; 8] = [1.0, 1.0, 1.0, 2.0, 0.25, 0.03, 0.001, 1e-30];

/// The farthest end of a block.
const FARTHEST: u64 = 1 << 62;

/// The most frames of a recorded block or drain.
pub const RECORDED: u64 = 512;

/// The most frames in long sessions of a block or a drain that is slow to play.
const SLOW: u64 = 512;

/// What a session is drawn from: each thing apart, so that the others are what
/// they were without it.
pub struct Streams {
    calls: Rng,
    /// What sample types have a say in.
    formats: Rng,
    /// What blocks are bent to.
    aims: Rng,
    /// Who asks for a house table.
    houses: Rng,
    /// Which channels are left out.
    linking: Rng,
    /// What a session leaves out from its start on.
    left_out: u32,
}

impl Streams {
    pub fn new(seed: u64, number: u64) -> Self {
        let mut start = Rng::new(seed ^ number.rotate_left(32));
        let [calls, formats, aims, houses, linking] = [(); 5].map(|()| Rng::new(start.word()));
        Self {
            calls,
            formats,
            aims,
            houses,
            linking,
            left_out: of_session(seed, number),
        }
    }
}

/// What a recorded session is drawn to have, whatever else it has.
#[derive(Clone, Copy, Debug)]
pub struct Wanted {
    pub types: Types,
    /// The rate and look of a house table that it asks for.
    pub pair: Option<(u32, u64)>,
    pub channels: Option<usize>,
    pub left_out: u32,
}

/// A random session; a recorded one asks for no house table and leaves no channel
/// out.
pub fn session(mode: Mode, types: Types, mut streams: Streams) -> Session {
    let setup = accepted(mode, &mut streams.calls);
    let (setup, house) = match mode {
        Mode::Recorded => (setup, false),
        _ => {
            let (setup, house) = settled(setup, &mut streams.houses);
            (streams.linked(setup), house)
        }
    };
    planned(mode, types, setup, house, streams)
}

/// A random session to be recorded.
pub fn wanted(wanted: &Wanted, mut streams: Streams) -> Session {
    let mut setup = accepted(Mode::Recorded, &mut streams.calls);
    if let Some(pair) = wanted.pair {
        setup = houses::at(setup, pair, &mut streams.houses);
    }
    setup.channels = wanted.channels.unwrap_or(setup.channels);
    setup.left_out = wanted.left_out;
    let house = wanted.pair.is_some();
    planned(Mode::Recorded, wanted.types, setup, house, streams)
}

fn planned(mode: Mode, types: Types, setup: Setup, house: bool, streams: Streams) -> Session {
    let Streams {
        calls: mut rng,
        mut formats,
        mut aims,
        houses,
        linking,
        ..
    } = streams;
    let rng = &mut rng;
    let look = look(setup.lookahead, setup.rate);
    let bytes = BANK_BYTES + needed(setup.channels as u64, look);
    // Huge samples lead to subnormal gains, which cost much over a long row.
    let costs = mode == Mode::Direct && look > 400;
    let usual = rng.below(if costs { 32 } else { 4 }) > 0;
    let kinds: &[Signal] = if usual { &USUAL } else { &SIGNALS };
    let types = types.of_session(&mut formats);
    let mut planner = Planner {
        mode,
        types,
        formats,
        // What is recorded stays as it is drawn, and so do some of the others.
        bends: mode != Mode::Recorded && aims.below(4) > 0,
        aims,
        houses,
        linking,
        setup,
        position: start(rng),
        palette: [0; 3].map(|_| rng.pick(kinds)),
        kinds,
    };
    Session {
        setup,
        cap: cap(bytes, rng),
        house,
        types,
        turns: planner.turns(rng),
    }
}

/// A cap that allows so many bytes, or none.
fn cap(bytes: u64, rng: &mut Rng) -> Option<u64> {
    let [least, twice, most] = [bytes, 2 * bytes, u64::MAX].map(Some);
    rng.pick(&[None, None, None, least, twice, most])
}

/// A position to start or to jump to.
fn start(rng: &mut Rng) -> u64 {
    match rng.below(8) {
        0..=2 => 0,
        3 => 32 * rng.below(1 << 20),
        4 => FARTHEST - rng.below(100_000),
        5 => rng.below(FARTHEST),
        _ => rng.below(1 << 20),
    }
}

/// Frames of a damaged call: hardly ever many, so that there are many calls.
fn few(rng: &mut Rng) -> u64 {
    match rng.below(256) {
        0..=3 => 0,
        4..=123 => 1 + rng.below(8),
        124..=247 => 1 + rng.below(40),
        248..=254 => 1 + rng.below(400),
        _ => 1 + rng.below(4_000),
    }
}

/// Mostly short, some long.
fn some(rng: &mut Rng) -> u64 {
    match rng.below(100) {
        0 | 1 => 0,
        2..=59 => 1 + rng.below(80),
        60..=84 => 1 + rng.below(400),
        85..=97 => 1 + rng.below(2_000),
        98 => rng.below(20_000),
        _ => longest(rng),
    }
}

/// The same with more long ones.
fn many(rng: &mut Rng) -> u64 {
    match rng.below(100) {
        0 | 1 => 0,
        2..=54 => 1 + rng.below(80),
        55..=79 => 1 + rng.below(400),
        80..=90 => 1 + rng.below(2_000),
        91..=97 => rng.below(20_000),
        _ => longest(rng),
    }
}

fn longest(rng: &mut Rng) -> u64 {
    LARGEST - rng.below(2) * rng.below(40_000)
}

/// Words of an answer buffer: an answer's own, or others, none among them.
fn answer(rng: &mut Rng) -> usize {
    match rng.below(2) {
        0 => ANSWER,
        _ => rng.below(ANSWER as u64 + 3) as usize,
    }
}

/// Draws the turns of a session.
struct Planner {
    mode: Mode,
    types: Types,
    formats: Rng,
    aims: Rng,
    /// Whether blocks are bent.
    bends: bool,
    houses: Rng,
    linking: Rng,
    setup: Setup,
    /// Where the next block starts if it is in sequence.
    position: u64,
    /// Kinds of samples that the session has, and those that it has more often.
    kinds: &'static [Signal],
    palette: [Signal; 3],
}

impl Planner {
    fn turns(&mut self, rng: &mut Rng) -> Vec<Turn> {
        match self.mode {
            Mode::Whole | Mode::Direct => {
                let turns = self.whole(rng);
                let turns = with_houses(turns, &self.setup, &mut self.houses);
                with_choices(turns, &self.setup, &mut self.linking)
            }
            Mode::Damage => {
                let turns = self.damaged(rng);
                with_choices(turns, &self.setup, &mut self.linking)
            }
            Mode::Recorded => self.recorded(rng),
        }
    }

    /// Turns of every kind; one in five is spoiled.
    fn whole(&mut self, rng: &mut Rng) -> Vec<Turn> {
        let turns = 5 + rng.below(50);
        let turn = |_| {
            let part = self.part(rng);
            let spoiled = rng.below(5) == 0;
            let faults = if spoiled { 1 + rng.below(2) } else { 0 };
            // The model plays what is accepted of these.
            let slow = spoiled && self.mode == Mode::Direct;
            Turn {
                part: if slow { part.cut(SLOW) } else { part },
                faults: (0..faults).map(|_| self.fault(rng)).collect(),
                answer: answer(rng),
            }
        };
        (0..turns).map(turn).collect()
    }

    /// Turns of every kind without a fault, none of them long.
    fn recorded(&mut self, rng: &mut Rng) -> Vec<Turn> {
        let turns = 10 + rng.below(30);
        let turn = |_| Turn {
            part: self.part(rng).cut(RECORDED),
            faults: Vec::new(),
            answer: ANSWER,
        };
        (0..turns).map(turn).collect()
    }

    /// Mostly a careless host's, at times damage.
    fn fault(&mut self, rng: &mut Rng) -> Fault {
        match rng.below(8) {
            0 => damage(rng),
            _ => match careless(rng) {
                Fault::AudioLength { .. } if self.typed() => Fault::AudioType,
                fault => fault,
            },
        }
    }

    /// In half of the cases of a session that has f32: one that is about types.
    fn typed(&mut self) -> bool {
        self.types != Types::F64 && self.formats.below(2) == 0
    }

    /// Blocks that keep the session going, and damaged calls between them.
    fn damaged(&mut self, rng: &mut Rng) -> Vec<Turn> {
        let mut turns = Vec::new();
        for i in 0..DAMAGED {
            if i % 8 == 0 {
                turns.push(Turn {
                    part: Part::Block(self.block(rng)),
                    faults: Vec::new(),
                    answer: answer(rng),
                });
            }
            let mut part = self.aimed(rng);
            let mut faults = vec![match part {
                Part::Setup { .. } => weights(rng),
                _ => damage(rng),
            }];
            if rng.below(4) == 0 {
                faults.push(damage(rng));
            }
            match &mut part {
                Part::Block(block) => faults.extend(remembered(block, &mut self.aims)),
                Part::Setup { .. } if self.houses.below(2) == 0 => {
                    (part, faults) = asking(&self.setup, &mut self.houses);
                }
                _ => {}
            }
            turns.push(Turn {
                part,
                faults,
                answer: answer(rng),
            });
        }
        turns
    }

    /// A call that is good but for the damage, mostly one that judges all.
    fn aimed(&mut self, rng: &mut Rng) -> Part {
        match rng.below(12) {
            0 => Part::Setup {
                setup: self.setup,
                cap: None,
                house: false,
            },
            1 => Part::Reset,
            2 => Part::Set {
                id: 0,
                bits: threshold(rng).to_bits(),
            },
            3 => Part::Read { id: 0 },
            4 | 5 => self.gain_step(rng.unit()),
            6 | 7 => self.drain(rng),
            _ => Part::Block(self.block(rng)),
        }
    }

    fn part(&mut self, rng: &mut Rng) -> Part {
        match rng.below(42) {
            0 => Part::Restart {
                left_out: self.setup.left_out,
            },
            1 | 40 | 41 => self.other_setup(rng),
            2..=4 => Part::Reset,
            5..=8 => self.set(rng),
            9 | 10 => Part::Read {
                id: rng.pick(&[0, 0, 0, 1, 7, u32::MAX]),
            },
            11 | 12 => self.gain_step(gain(rng)),
            21 => self.number(rng),
            13..=18 => self.drain(rng),
            19 | 20 => self.bad_block(rng),
            _ => Part::Block(self.block(rng)),
        }
    }

    /// A setup that is not the session's: most are refused, if by 16 alone.
    fn other_setup(&self, rng: &mut Rng) -> Part {
        let s = &self.setup;
        let bytes = BANK_BYTES + needed(s.channels as u64, look(s.lookahead, s.rate));
        let near = rng.pick(&[0, 79, 80, 81, bytes - 1, bytes, bytes + 1]);
        match rng.below(2) {
            0 => Part::Setup {
                setup: *s,
                cap: Some(near),
                house: false,
            },
            _ => Part::Setup {
                setup: setups::setup(rng),
                cap: rng.pick(&[None, None, Some(near), Some(rng.clone().word())]),
                house: false,
            },
        }
    }

    /// A function of numbers alone.
    fn number(&self, rng: &mut Rng) -> Part {
        let Setup {
            lookahead, rate, ..
        } = setups::setup(rng);
        match rng.below(2) {
            0 => Part::Look { lookahead, rate },
            _ => Part::Bytes {
                channels: 1 + rng.below(8),
                look: rng.pick(&[
                    11,
                    12,
                    72,
                    4096,
                    look(self.setup.lookahead, self.setup.rate),
                ]),
            },
        }
    }

    fn set(&self, rng: &mut Rng) -> Part {
        let value = match rng.below(6) {
            0 => not_finite(rng),
            1 => any(rng),
            _ => value(rng),
        };
        Part::Set {
            id: rng.pick(&[0, 0, 0, 0, 0, 1, 8, u32::MAX]),
            bits: value.to_bits(),
        }
    }

    /// A lone gain step; gains of few digits lead to products that lie between
    /// two f32.
    fn gain_step(&mut self, drawn: f64) -> Part {
        let short = self.typed().then(|| short_gain(&mut self.formats));
        Part::GainStep {
            bits: short.unwrap_or(drawn).to_bits(),
        }
    }

    fn drain(&mut self, rng: &mut Rng) -> Part {
        let look = look(self.setup.lookahead, self.setup.rate);
        let frames = match rng.below(64) {
            0 => rng.pick(&[LARGEST, LARGEST + 1, u64::MAX, 1 << 61]),
            1..=4 => 0,
            5..=8 => look + rng.below(3) - 1,
            9..=12 => look + rng.below(2_000),
            _ => rng.below(look),
        };
        let drain = Part::Drain {
            format: self.types.of_call(&mut self.formats),
            frames,
            seed: rng.word(),
        };
        // A drain that is too long by far is refused in no time.
        if self.mode == Mode::Damage && frames <= 2 * LARGEST {
            drain.cut(few(rng))
        } else {
            drain
        }
    }

    /// A block that the table accepts.
    fn block(&mut self, rng: &mut Rng) -> Block {
        if rng.below(10) == 0 {
            self.position = start(rng);
        }
        let most = (FARTHEST - self.position).min(self.setup.block as u64);
        let frames = self.frames(rng).min(most);
        // The end of all positions is an end to aim at.
        if self.position > FARTHEST / 2 && rng.below(4) == 0 {
            self.position = FARTHEST - frames;
        }
        let format = self.types.of_call(&mut self.formats);
        let mut block = Block {
            format,
            position: self.position,
            frames,
            events: events(frames, rng),
            kinds: self.kinds(rng),
            level: rng.pick(&LEVELS),
            ties: format == Format::F64 && self.typed(),
            aims: Vec::new(),
            seed: rng.word(),
        };
        if self.bends {
            bend(&mut block, &mut self.aims);
        }
        let block = self.cheaper(block);
        self.position = (self.position + block.frames) % FARTHEST;
        block
    }

    /// Subnormal samples cost the processor many times as much as others, so
    /// that long sessions have fewer of them. Those of f32 are none once widened.
    fn cheaper(&self, block: Block) -> Block {
        let wide = block.format == Format::F64;
        let subnormal = |kind: &Signal| matches!(kind, Signal::Subnormal | Signal::Smallest);
        let costs = wide && self.mode == Mode::Direct && block.kinds.iter().any(subnormal);
        if costs && block.frames > SLOW {
            block.cut(SLOW)
        } else {
            block
        }
    }

    fn frames(&self, rng: &mut Rng) -> u64 {
        match self.mode {
            Mode::Damage => few(rng),
            Mode::Direct => self.affordable(many(rng), 16_000_000, rng),
            Mode::Whole | Mode::Recorded => self.affordable(some(rng), 4_000_000, rng),
        }
    }

    /// So many frames, mostly fewer where they cost more than `most`.
    fn affordable(&self, frames: u64, most: u64, rng: &mut Rng) -> u64 {
        let look = look(self.setup.lookahead, self.setup.rate);
        let cost = frames * (look + 60 * self.setup.channels as u64);
        if cost > most && rng.below(8) > 0 {
            frames / 16
        } else {
            frames
        }
    }

    /// A kind for each channel: one for all, or one each.
    fn kinds(&self, rng: &mut Rng) -> Vec<Signal> {
        let all = rng.pick(&self.palette);
        let mixed = rng.below(4) == 0;
        let kind = |_| match rng.below(8) {
            0 if mixed => rng.pick(self.kinds),
            1..=4 if mixed => rng.pick(&self.palette),
            _ => all,
        };
        (0..self.setup.channels).map(kind).collect()
    }

    /// A block with one thing that 20, 21 or 22 refuses, if not several.
    fn bad_block(&mut self, rng: &mut Rng) -> Part {
        let (cursor, mut block) = (self.position, self.block(rng));
        self.position = cursor;
        for _ in 0..1 + rng.below(2) {
            match rng.below(4) {
                0 => {
                    let more = self.setup.block as u64 + 1;
                    block.frames = rng.pick(&[more, LARGEST + 1, 1 << 61, 1 << 63, u64::MAX]);
                    block.kinds.fill(Signal::Silence);
                    block.aims.clear();
                }
                1 => {
                    let end = FARTHEST - block.frames.min(FARTHEST);
                    block.position = rng.pick(&[end + 1, FARTHEST, u64::MAX]);
                }
                _ => spoil(&mut block, rng),
            }
        }
        Part::Block(block)
    }
}
