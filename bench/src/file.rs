//! A whole file through the Rust at its defaults, as the program `daggeryuzu`
//! does it: the tail drained, the latency cut off. Raw samples, frame after frame,
//! low byte first, from standard input to standard output.

use std::io::{Read, Write};

use crate::context::ProcessContext;
use crate::mastering::limiter as rust;
use crate::processor::{AudioBlockMut, Kernel, KernelProcessor, ProcessSpec};
use crate::sample_type::Sample;
use crate::traits::Processor;

const BLOCK: usize = 4096;

/// Limits standard input at a rate and so many channels.
pub fn limit<T: Sample>(rate: u32, channels: usize) -> Result<(), String> {
    let mut bytes = Vec::new();
    let read = std::io::stdin().read_to_end(&mut bytes);
    read.map_err(|e| format!("standard input: {e}"))?;
    let samples: Vec<T> = bytes.chunks_exact(size_of::<T>()).map(sample).collect();
    let frames = samples.len() / channels;
    let mut planes: Vec<Vec<T>> = (0..channels)
        .map(|c| samples.iter().skip(c).step_by(channels).copied().collect())
        .collect();
    let look = through(&mut planes, rate)?;
    let mut out = Vec::with_capacity(bytes.len());
    for i in look..look + frames {
        for plane in &planes {
            let bytes = plane[i].bits().to_le_bytes();
            out.extend_from_slice(&bytes[..size_of::<T>()]);
        }
    }
    let written = std::io::stdout().write_all(&out);
    written.map_err(|e| format!("standard output: {e}"))
}

/// A sample of its bytes.
fn sample<T: Sample>(bytes: &[u8]) -> T {
    let mut word = [0; 8];
    word[..bytes.len()].copy_from_slice(bytes);
    T::of_bits(u64::from_le_bytes(word))
}

/// The planes limited in place, with the tail behind them: the latency.
fn through<T: Sample>(planes: &mut [Vec<T>], rate: u32) -> Result<usize, String> {
    let frames = planes[0].len();
    let mut limiter: KernelProcessor<rust::Limiter, T> = rust::Limiter::new().into_processor();
    let spec = ProcessSpec {
        sample_rate: rate,
        channels: planes.len(),
        max_block: BLOCK,
        max_memory: None,
    };
    let prepared = limiter.prepare(spec);
    prepared.map_err(|e| format!("the Rust: {e}"))?;
    let look = limiter.latency();
    for plane in planes.iter_mut() {
        plane.resize(frames + look, T::of_bits(0));
    }
    for at in (0..frames).step_by(BLOCK) {
        let end = frames.min(at + BLOCK);
        let mut block: Vec<&mut [T]> = planes.iter_mut().map(|p| &mut p[at..end]).collect();
        limiter.process(&mut ProcessContext::in_place(&mut block, at as u64));
    }
    let mut tail: Vec<&mut [T]> = planes.iter_mut().map(|p| &mut p[frames..]).collect();
    let produced = limiter.flush(&mut AudioBlockMut::new(&mut tail));
    if produced.frames == look && produced.done {
        Ok(look)
    } else {
        Err(format!("the Rust drained {} of {look}", produced.frames))
    }
}
