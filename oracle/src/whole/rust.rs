//! The Rust's `KernelProcessor<Limiter, _>` at either sample type, behind the same
//! calls.

mod aside;

use crate::audio::{Audio, Crossing, Format};
use crate::block::AudioBlockMut;
use crate::calls::{Call, Lent, Stores, ANSWER};
use crate::context::ProcessContext;
use crate::dsp::driver::{inside as driver, KernelProcessor, SmootherBank};
use crate::mastering::limiter::{inside as kernel, Limiter, LimiterSettings};
use crate::model::setup::{look, Setup};
use crate::model::state::State;
use crate::model::threshold::{declared, Smoother};
use crate::model::{house, judge};
use crate::param::{ParamEvent, ParamId, ParamSetError};
use crate::spec::ProcessSpec;
use crate::traits::Processor;
use aside::Aside;

/// A processor that was prepared.
pub struct Rust {
    processor: Typed,
    spec: ProcessSpec,
    /// The channels that do not count, which the Rust is fed silence for.
    aside: Aside,
}

/// A processor of a sample type.
enum Typed {
    F64(KernelProcessor<Limiter, f64>),
    F32(KernelProcessor<Limiter, f32>),
}

/// What a processor answers, whichever type it has.
macro_rules! typed {
    ($typed:expr, $processor:ident => $answer:expr) => {
        match $typed {
            Typed::F64($processor) => $answer,
            Typed::F32($processor) => $answer,
        }
    };
}

impl Typed {
    fn new(limiter: Limiter, format: Format) -> Self {
        match format {
            Format::F64 => Self::F64(KernelProcessor::with_sample_type(limiter)),
            Format::F32 => Self::F32(KernelProcessor::with_sample_type(limiter)),
        }
    }

    fn format(&self) -> Format {
        match self {
            Self::F64(_) => Format::F64,
            Self::F32(_) => Format::F32,
        }
    }
}

impl Rust {
    /// A processor of this sample type from its setup on.
    pub fn new(setup: &Setup, cap: Option<u64>, format: Format) -> Result<Self, String> {
        let settings = LimiterSettings::new()
            .threshold_db(setup.threshold)
            .true_peak_margin_db(setup.margin)
            .lookahead_ms(setup.lookahead)
            .release_ms(setup.release);
        let spec = ProcessSpec {
            sample_rate: setup.rate,
            channels: setup.channels,
            max_block: setup.block,
            max_memory: cap.map(|cap| cap as usize),
        };
        let limiter = Limiter::with_settings(settings);
        let mut processor = Typed::new(limiter, format);
        let prepared = typed!(&mut processor, p => p.prepare(spec));
        prepared.map_err(|e| e.to_string())?;
        let look = typed!(&processor, p => p.latency());
        Ok(Self {
            processor,
            spec,
            aside: Aside::new(setup.left_out, setup.channels, look),
        })
    }

    /// A processor that holds what is lent, where both mean the same by it: the
    /// limiter is set up (a reading asks that of the bank alone), the stores have
    /// their lengths, and the threshold lies in its range, since document 01 keeps
    /// the target of any other where the Rust does not.
    pub fn forged(lent: &Lent, format: Format) -> Option<Self> {
        let state = State::read(&lent.state)?;
        judge::prepared(&state).ok()?;
        let mut rust = Self::new(&state.setup, None, format).ok()?;
        let own = rust.lent().stores;
        let mut pairs = own.0.iter().zip(&lent.stores.0);
        let fits = pairs.all(|(own, lent)| own.len() == lent.len());
        let kept = (-30.0..=0.0).contains(&state.threshold.cur);
        (fits && kept).then(|| {
            rust.forge(&state, &lent.stores);
            rust
        })
    }

    fn forge(&mut self, state: &State, stores: &Stores) {
        let mut stores = stores.clone();
        self.aside.take(&mut stores);
        kernel::forge(self.kernel_mut(), state, &stores);
        let bank = typed!(&mut self.processor, p => driver::bank_mut(p));
        let mut slot = driver::slots(bank)[0];
        slot.cur = state.threshold.cur;
        slot.target = state.threshold.target;
        slot.delta = state.threshold.delta;
        slot.left = state.threshold.left;
        driver::forge(bank, 0, &slot);
    }

    /// The look that the Rust derived.
    pub fn look(&self) -> usize {
        typed!(&self.processor, p => p.latency())
    }

    fn kernel(&self) -> &Limiter {
        typed!(&self.processor, p => driver::kernel(p))
    }

    fn kernel_mut(&mut self) -> &mut Limiter {
        typed!(&mut self.processor, p => driver::kernel_mut(p))
    }

    fn bank(&self) -> &SmootherBank {
        typed!(&self.processor, p => driver::bank(p))
    }

    /// Play a call that document 01 accepts, or a parameter call or a reading:
    /// these the Rust refuses by itself. Answers the number and what is told.
    pub fn call(&mut self, call: &mut Call) -> (u32, Vec<u64>) {
        match call {
            Call::Setup { setup, .. } => {
                let prepared = typed!(&mut self.processor, p => p.prepare(self.spec));
                self.aside = Aside::new(setup.left_out, setup.channels, self.look());
                (u32::from(prepared.is_err()), Vec::new())
            }
            Call::Process {
                position,
                events,
                audio,
                ..
            } => {
                self.process(*position, events, audio);
                (0, Vec::new())
            }
            Call::Flush { audio, .. } => (0, self.flush(audio)),
            Call::Set { id, bits } => self.set(*id, *bits),
            Call::Read { id } => match self.bank().value(ParamId(*id)) {
                Some(value) => (0, vec![value.to_bits()]),
                None => (24, Vec::new()),
            },
            Call::Reset => {
                typed!(&mut self.processor, p => p.reset());
                self.aside.reset();
                (0, Vec::new())
            }
            Call::GainStep { bits } => (0, self.gain_step(f64::from_bits(*bits))),
            Call::Look { lookahead, rate } => {
                // Where the Rust refuses, document 01's.
                let derived = kernel::look(*lookahead, *rate).map(|look| look as u64);
                (0, vec![derived.unwrap_or(look(*lookahead, *rate))])
            }
            Call::Bytes { channels, look } => (0, vec![footprint(*channels, *look)]),
            Call::House { rate, look } => {
                // The Rust has no such function.
                let has = house::place(*rate, *look).is_some();
                (0, vec![u64::from(has)])
            }
        }
    }

    fn process(&mut self, position: u64, events: &[u64], audio: &mut Audio) {
        self.turn_to(audio.format);
        let events: Vec<ParamEvent> = events.chunks_exact(3).map(event).collect();
        if self.aside.is_empty() {
            self.render(position, &events, audio);
        } else {
            self.render_runs(position, &events, audio);
        }
    }

    fn render(&mut self, position: u64, events: &[ParamEvent], audio: &mut Audio) {
        let channels = self.spec.channels;
        typed!(&mut self.processor, p => process(p, channels, position, events, audio));
    }

    fn flush(&mut self, audio: &mut Audio) -> Vec<u64> {
        self.turn_to(audio.format);
        if self.aside.is_empty() {
            self.drain(audio)
        } else {
            self.drain_frames(audio)
        }
    }

    fn drain(&mut self, audio: &mut Audio) -> Vec<u64> {
        let channels = self.spec.channels;
        typed!(&mut self.processor, p => flush(p, channels, audio))
    }

    /// A processor is fixed to its sample type. Where a call of the other one
    /// follows, what it holds goes on in a processor of that one.
    fn turn_to(&mut self, format: Format) {
        if self.processor.format() == format {
            return;
        }
        let unprepared = Limiter::with_settings(LimiterSettings::new());
        let held = std::mem::replace(&mut self.processor, Typed::new(unprepared, format));
        self.processor = match held {
            Typed::F64(p) => Typed::F32(driver::retyped(p)),
            Typed::F32(p) => Typed::F64(driver::retyped(p)),
        };
    }

    fn set(&mut self, id: u32, bits: u64) -> (u32, Vec<u64>) {
        let (id, value) = (ParamId(id), f64::from_bits(bits));
        match typed!(&mut self.processor, p => p.set_parameter_immediate(id, value)) {
            Ok(()) => (0, Vec::new()),
            Err(ParamSetError::UnknownParam(_)) => (24, Vec::new()),
            Err(ParamSetError::NonFiniteValue { param, value }) => {
                (23, vec![u64::from(param.0), value.to_bits()])
            }
        }
    }

    fn gain_step(&mut self, gain: f64) -> Vec<u64> {
        let step = kernel::step(self.kernel_mut(), gain);
        let counts = [step.dropped, step.kept, step.tally].map(|n| n as u64);
        let mut told = vec![step.floor.to_bits()];
        told.extend(counts);
        told.extend([step.mean, step.gain].map(f64::to_bits));
        told
    }

    /// All that the Rust holds, as it would cross, and what is held beside it; the
    /// answer is empty.
    pub fn lent(&self) -> Lent {
        let limiter = self.kernel();
        let mut stores = kernel::stores(limiter);
        self.aside.show(&mut stores);
        let mut state = kernel::state(limiter);
        state.setup.left_out = self.aside.left_out;
        let largest = typed!(&self.processor, p => driver::largest_block(p));
        state.setup.block = largest.unwrap_or_default();
        state.threshold = self.threshold(state.setup.threshold);
        state.count = 1;
        state.bank_rate = self.spec.sample_rate;
        state.ready = true;
        Lent {
            state: state.bytes(),
            answer: vec![0; ANSWER],
            stores,
        }
    }

    /// The threshold's smoother; what the Rust does not keep is as declared.
    fn threshold(&self, default: f64) -> Smoother {
        let slots = driver::slots(self.bank());
        let slot = slots.first().expect("the threshold");
        Smoother {
            cur: slot.cur,
            target: slot.target,
            low: slot.low,
            high: slot.high,
            default: slot.default,
            steps: slot.steps,
            left: slot.left,
            delta: slot.delta,
            coeff: slot.coeff,
            ..Smoother::new(&declared(default), self.spec.sample_rate)
        }
    }
}

/// The bytes that the Rust holds for channels and a look, the bank's among them.
fn footprint(channels: u64, look: u64) -> u64 {
    let setup = Setup {
        threshold: -1.0,
        margin: 0.0,
        lookahead: look as f64 / 48.0,
        release: 0.0,
        left_out: 0,
        rate: 48_000,
        channels: channels as usize,
        block: 0,
    };
    let rust = Rust::new(&setup, None, Format::F64).expect("a good look");
    typed!(&rust.processor, p => p.memory_footprint()) as u64
}

fn process<T: Crossing>(
    processor: &mut KernelProcessor<Limiter, T>,
    channels: usize,
    position: u64,
    events: &[ParamEvent],
    audio: &mut Audio,
) {
    let mut planes: Vec<Vec<T>> = audio.planes(channels);
    let mut table: Vec<&mut [T]> = planes.iter_mut().map(Vec::as_mut_slice).collect();
    let mut context = ProcessContext::in_place(&mut table, position);
    context.events = events;
    processor.process(&mut context);
    *audio = Audio::of(&planes.concat());
}

fn flush<T: Crossing>(
    processor: &mut KernelProcessor<Limiter, T>,
    channels: usize,
    audio: &mut Audio,
) -> Vec<u64> {
    let mut planes: Vec<Vec<T>> = audio.planes(channels);
    let mut table: Vec<&mut [T]> = planes.iter_mut().map(Vec::as_mut_slice).collect();
    let produced = processor.flush(&mut AudioBlockMut::new(&mut table));
    *audio = Audio::of(&planes.concat());
    vec![produced.frames as u64, u64::from(produced.done)]
}

/// An event of three words. Ids that the Rust cannot hold are unknown ones.
fn event(words: &[u64]) -> ParamEvent {
    ParamEvent {
        offset: words[0] as u32,
        param: ParamId(u32::try_from(words[1]).unwrap_or(u32::MAX)),
        value: f64::from_bits(words[2]),
    }
}
