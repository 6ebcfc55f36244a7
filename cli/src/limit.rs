//! The work itself: a stream through the limiter, block by block, with the
//! latency cut off its start and the tail drained at its end.

use std::collections::VecDeque;
use std::time::{Duration, Instant};

use daggeryuzu::{Limiter, Refusal};

use crate::failure::Failure;
use crate::gains::Gains;
use crate::input::{Highest, Input};
use crate::meter::{Measured, Meter};
use crate::sndfile::{Encoding, Reader, Sample};

/// What the work came to.
#[derive(Clone, Debug)]
pub struct Outcome {
    /// What went in.
    pub input: Measured,
    /// Its highest peak in the channels that count; silence has none.
    pub highest: Option<Highest>,
    /// What came out, as the file holds it.
    pub output: Measured,
    /// The gains in between.
    pub gains: Gains,
    /// How long it took.
    pub elapsed: Duration,
}

/// Limits all that the reader gives, as samples of one type from the file to the
/// sink. `sink` gets the output block by block, interleaved and as the file holds
/// it, and `tick` the frames read so far.
///
/// # Errors
/// What the reader, the limiter, the sink or `tick` has to say.
pub fn limit<T: Sample>(
    reader: &mut Reader,
    limiter: &mut Limiter,
    block: usize,
    mut sink: impl FnMut(&[T]) -> Result<(), Failure>,
    mut tick: impl FnMut(u64) -> Result<(), Failure>,
) -> Result<Outcome, Failure> {
    let started = Instant::now();
    let (channels, silence) = (reader.format().channels, T::from_f64(0.0));
    let mut input = Input::new(limiter.counts());
    let mut out = Out::new(limiter, reader.format().encoding);
    let mut samples = vec![silence; channels * block];
    loop {
        tick(input.position())?;
        let frames = reader.read(&mut samples)?;
        if frames == 0 {
            break;
        }
        let audio = &mut samples[..channels * frames];
        out.held.extend(&*audio);
        input.render(limiter, audio).map_err(refused)?;
        sink(out.take(audio))?;
    }
    let (input, highest) = input.finish(limiter).map_err(refused)?;
    samples.resize(channels * limiter.latency(), silence);
    let frames = drain(limiter, &mut samples).map_err(refused)?;
    sink(out.take(&mut samples[..channels * frames]))?;
    Ok(Outcome {
        input,
        highest,
        output: out.meter.finish(),
        gains: out.gains,
        elapsed: started.elapsed(),
    })
}

/// The tail, interleaved: its frames.
fn drain<T: Sample>(limiter: &mut Limiter, audio: &mut [T]) -> Result<usize, Refusal> {
    let tail = limiter.flush(audio)?;
    limiter.interleave(audio)?;
    Ok(tail.frames)
}

/// The limiter's refusal as the line that ends the program.
pub fn refused(refusal: Refusal) -> Failure {
    Failure::new(format!("refused: {refusal}"))
}

/// What is done with the limiter's output.
struct Out<T> {
    channels: usize,
    /// Frames of latency still to be cut off.
    late: usize,
    encoding: Encoding,
    /// Inputs whose outputs are still to come, interleaved.
    held: VecDeque<T>,
    meter: Meter,
    gains: Gains,
}

impl<T: Sample> Out<T> {
    fn new(limiter: &Limiter, encoding: Encoding) -> Self {
        Self {
            channels: limiter.counts().len(),
            late: limiter.latency(),
            encoding,
            held: VecDeque::new(),
            meter: Meter::new(limiter.counts()),
            gains: Gains::default(),
        }
    }

    /// The block's output, interleaved, without the latency, and rounded where the
    /// file holds whole numbers; a float stays as the limiter gave it out.
    fn take<'a>(&mut self, audio: &'a mut [T]) -> &'a [T] {
        let cut = self.late.min(audio.len() / self.channels);
        self.late -= cut;
        let ready = &mut audio[self.channels * cut..];
        for frame in ready.chunks_exact(self.channels) {
            let inputs = self.held.drain(..self.channels);
            self.gains
                .take(inputs.zip(frame).map(|(x, y)| (x.to_f64(), y.to_f64())));
        }
        if let Encoding::Pcm(_) = self.encoding {
            for x in ready.iter_mut() {
                *x = T::from_f64(self.encoding.round(x.to_f64()));
            }
        }
        self.meter.take(ready);
        ready
    }
}
