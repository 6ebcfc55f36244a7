//! The two limiters behind one face: each takes a run of blocks, with all that
//! it needs laid out before the clock starts, and tells how long it took.

use crate::clock::timed;
use crate::context::ProcessContext;
use crate::mastering::limiter as rust;
use crate::processor::{Kernel, KernelProcessor, ProcessSpec, Sample};
use crate::traits::Processor;

/// What both are set up with.
#[derive(Clone, Copy, Debug)]
pub struct Setup {
    /// Frames a second.
    pub rate: u32,
    /// Lookahead in ms.
    pub lookahead_ms: f64,
    /// Channels.
    pub channels: usize,
    /// So many of the last ones do not count in ours; the Rust counts all.
    pub left_out: usize,
    /// Frames in a block.
    pub block: usize,
}

impl Setup {
    /// The same, as ours takes it.
    pub fn of_ours(&self) -> (daggeryuzu::LimiterSettings, daggeryuzu::ProcessSpec) {
        let settings = daggeryuzu::LimiterSettings::default().lookahead_ms(self.lookahead_ms);
        let left_out = self.channels - self.left_out..self.channels;
        let settings = left_out.fold(settings, |s, channel| s.leave_out(channel));
        let spec = daggeryuzu::ProcessSpec {
            sample_rate: self.rate,
            channels: self.channels,
            max_block: self.block,
            max_memory: None,
        };
        (settings, spec)
    }
}

/// The proved limiter, through its safe wrapper.
pub struct Ours {
    limiter: daggeryuzu::Limiter,
    position: u64,
}

impl Ours {
    pub fn new(setup: &Setup) -> Result<Self, String> {
        let (settings, spec) = setup.of_ours();
        let limiter = daggeryuzu::Limiter::prepare(settings, spec);
        Ok(Self {
            limiter: limiter.map_err(|e| format!("ours: {e}"))?,
            position: 0,
        })
    }

    /// Limits the blocks in place, and asks each where its highest peak sat, or does
    /// not: ns that it took.
    pub fn run<T: daggeryuzu::Sample>(
        &mut self,
        blocks: &mut [Vec<T>],
        channels: usize,
        asked: bool,
    ) -> Result<f64, String> {
        let mut done = Ok(());
        let time = timed(|| {
            for block in blocks.iter_mut() {
                done = done.and(self.block(block, asked));
                self.position += (block.len() / channels) as u64;
            }
        });
        done.map(|()| time).map_err(|e| format!("ours: {e}"))
    }

    fn block<T: daggeryuzu::Sample>(
        &mut self,
        block: &mut [T],
        asked: bool,
    ) -> Result<(), daggeryuzu::Refusal> {
        if asked {
            let place = self.limiter.process(self.position, block, &[])?;
            std::hint::black_box(place);
            return Ok(());
        }
        self.limiter.process_audio(self.position, block, &[])
    }
}

/// The Rust, which is kept to one sample type.
pub struct Theirs<T: Sample> {
    limiter: KernelProcessor<rust::Limiter, T>,
    position: u64,
}

impl<T: Sample> Theirs<T> {
    pub fn new(setup: &Setup) -> Result<Self, String> {
        let settings = rust::LimiterSettings::new().lookahead_ms(setup.lookahead_ms);
        let limiter = rust::Limiter::with_settings(settings);
        let mut theirs = Self {
            limiter: <rust::Limiter as Kernel<T>>::into_processor(limiter),
            position: 0,
        };
        theirs.prepare(setup)?;
        Ok(theirs)
    }

    /// Its own setup: it computes weights and taps, and allocates; what it had before
    /// is freed. The lookahead stays.
    pub fn prepare(&mut self, setup: &Setup) -> Result<(), String> {
        let spec = ProcessSpec {
            sample_rate: setup.rate,
            channels: setup.channels,
            max_block: setup.block,
            max_memory: None,
        };
        let done = self.limiter.prepare(spec);
        done.map_err(|e| format!("the Rust: {e}"))
    }

    /// Limits the blocks in place: ns that it took. The tables of channels are
    /// laid out before.
    pub fn run(&mut self, blocks: &mut [Vec<T>], channels: usize) -> f64 {
        let mut tables: Vec<Vec<&mut [T]>> = blocks
            .iter_mut()
            .map(|block| {
                let frames = block.len() / channels;
                block.chunks_mut(frames).collect()
            })
            .collect();
        timed(|| {
            for table in &mut tables {
                let frames = table[0].len() as u64;
                let mut context = ProcessContext::in_place(table, self.position);
                self.limiter.process(&mut context);
                self.position += frames;
            }
        })
    }
}
