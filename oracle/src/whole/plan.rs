//! A session of the whole limiter: a setup, and turns that each carry all that
//! they need, so that any of them can be left out.

use super::aims::Aim;
use super::faults::Fault;
use crate::audio::{Audio, Format, Types};
use crate::calls::Call;
use crate::model::setup::Setup;
use crate::rng::{rubbish, Rng};
use crate::signals::{narrowed, signal, tied, Signal};

/// The most frames that a block has.
pub const LARGEST: u64 = 65_536;

/// A session that is yet to be played.
#[derive(Clone, Debug)]
pub struct Session {
    pub setup: Setup,
    pub cap: Option<u64>,
    /// Whether the setup asks for a house table, its weights unfilled till then.
    pub house: bool,
    pub types: Types,
    pub turns: Vec<Turn>,
}

/// A call and what is done to it first. With a fault, or with a setup other than
/// the session's own, it is tried beside the session.
#[derive(Clone, Debug)]
pub struct Turn {
    pub part: Part,
    pub faults: Vec<Fault>,
    /// Words of the answer buffer that the call is lent.
    pub answer: usize,
}

/// A call that is yet to get its audio.
#[derive(Clone, Debug)]
pub enum Part {
    /// The session's own setup again, other channels left out or the same ones.
    Restart {
        left_out: u32,
    },
    Setup {
        setup: Setup,
        cap: Option<u64>,
        house: bool,
    },
    Block(Block),
    Drain {
        format: Format,
        frames: u64,
        seed: u64,
    },
    Set {
        id: u32,
        bits: u64,
    },
    Read {
        id: u32,
    },
    Reset,
    GainStep {
        bits: u64,
    },
    Look {
        lookahead: f64,
        rate: u32,
    },
    Bytes {
        channels: u64,
        look: u64,
    },
    House {
        rate: u32,
        look: u64,
    },
}

#[derive(Clone, Debug)]
pub struct Block {
    pub format: Format,
    pub position: u64,
    pub frames: u64,
    pub events: Vec<u64>,
    /// What each channel's samples are like, and what they are multiplied with.
    pub kinds: Vec<Signal>,
    pub level: f64,
    /// Whether f64 samples are moved to where two f32 are as near, or beside.
    pub ties: bool,
    /// What is then done to the samples, one after the other.
    pub aims: Vec<Aim>,
    pub seed: u64,
}

impl Turn {
    /// Whether the session goes on from what the call leaves.
    pub fn commits(&self) -> bool {
        self.faults.is_empty() && !matches!(self.part, Part::Setup { .. })
    }
}

impl Part {
    /// The call, its audio filled.
    pub fn call(&self, session: &Session) -> Call {
        let channels = session.setup.channels;
        match self.clone() {
            Self::Restart { left_out } => Call::Setup {
                setup: Setup {
                    left_out,
                    ..session.setup
                },
                cap: session.cap,
                house: session.house,
            },
            Self::Setup { setup, cap, house } => Call::Setup { setup, cap, house },
            Self::Block(block) => Call::Process {
                audio: block.audio(),
                position: block.position,
                frames: block.frames,
                events: block.events,
            },
            Self::Drain {
                format,
                frames,
                seed,
            } => Call::Flush {
                frames,
                audio: Audio {
                    format,
                    bytes: rubbish(format.size() * channels * lent(frames), seed),
                },
            },
            Self::Set { id, bits } => Call::Set { id, bits },
            Self::Read { id } => Call::Read { id },
            Self::Reset => Call::Reset,
            Self::GainStep { bits } => Call::GainStep { bits },
            Self::Look { lookahead, rate } => Call::Look { lookahead, rate },
            Self::Bytes { channels, look } => Call::Bytes { channels, look },
            Self::House { rate, look } => Call::House { rate, look },
        }
    }
}

impl Part {
    /// The part with at most so many frames.
    pub fn cut(self, most: u64) -> Self {
        match self {
            Self::Block(block) if block.frames > most => Self::Block(block.cut(most)),
            Self::Drain {
                format,
                frames,
                seed,
            } => Self::Drain {
                format,
                frames: frames.min(most),
                seed,
            },
            part => part,
        }
    }
}

impl Block {
    /// The first frames of a block, with the events that lie in them.
    pub fn cut(&self, frames: u64) -> Self {
        let events = self.events.chunks_exact(3);
        Self {
            frames,
            events: events
                .filter(|e| e[0] < frames)
                .flatten()
                .copied()
                .collect(),
            ..self.clone()
        }
    }

    fn audio(&self) -> Audio {
        let mut audio = self.plain();
        let aims = self.aims.iter();
        aims.for_each(|aim| aim.bend(&mut audio, self.kinds.len()));
        audio
    }

    /// The samples as they are drawn.
    fn plain(&self) -> Audio {
        let level = self.level;
        match self.format {
            Format::F64 if self.ties => Audio::of(&self.samples(|_, x, rng| tied(x * level, rng))),
            Format::F64 => Audio::of(&self.samples(|_, x, _| x * level)),
            Format::F32 => Audio::of(&self.samples(|kind, x, rng| narrowed(kind, x, level, rng))),
        }
    }

    /// Each channel's samples, from a seed of its own.
    fn samples<T>(&self, of: impl Fn(Signal, f64, &mut Rng) -> T) -> Vec<T> {
        let mut samples = Vec::new();
        for (channel, &kind) in self.kinds.iter().enumerate() {
            let seed = self.seed ^ (channel as u64) << 56;
            let wide = signal(kind, lent(self.frames), &mut Rng::new(seed));
            // Apart, so that the first frames stay when later ones are cut off.
            let mut rng = Rng::new(!seed);
            samples.extend(wide.into_iter().map(|x| of(kind, x, &mut rng)));
        }
        samples
    }
}

/// The frames that audio is lent for: far too many are lent none.
fn lent(frames: u64) -> usize {
    if frames > 2 * LARGEST {
        0
    } else {
        frames as usize
    }
}
