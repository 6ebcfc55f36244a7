//! What goes into the limiter, and where its highest peak sat.

use daggeryuzu::{Limiter, PeakPlace, Refusal, Sample};

use crate::detector::TAIL;
use crate::meter::{Measured, Meter};

/// The highest peak of a stream, in a channel that counts: its place is what the limiter
/// told, its height what the meter read, for the limiter tells none.
#[derive(Clone, Copy, Debug, PartialEq)]
pub struct Highest {
    /// As a factor of full scale.
    pub height: f64,
    /// Frames before the block that it was heard in.
    pub position: u64,
    /// Where in that block.
    pub place: PeakPlace,
}

impl Highest {
    /// The frame in which it was heard; on a sample, its own.
    #[must_use]
    pub fn frame(&self) -> u64 {
        self.position + self.place.frame() as u64
    }

    /// When it was, in frames from the start of a stream of so many: one that the
    /// detector puts before the start or after the end is put there.
    #[must_use]
    pub fn at(&self, frames: u64) -> f64 {
        (self.position as f64 + self.place.at()).clamp(0.0, frames as f64)
    }
}

/// A stream on its way into the limiter: how far it is, its meter, its highest peak.
#[derive(Clone, Debug)]
pub struct Input {
    channels: usize,
    position: u64,
    meter: Meter,
    highest: Option<Highest>,
}

impl Input {
    /// Before the first frame of these channels: whether each counts.
    #[must_use]
    pub fn new(counts: &[bool]) -> Self {
        Self {
            channels: counts.len(),
            position: 0,
            meter: Meter::new(counts),
            highest: None,
        }
    }

    /// Frames so far.
    #[must_use]
    pub fn position(&self) -> u64 {
        self.position
    }

    /// A block through the limiter, interleaved before and after. It has at most 65,536
    /// frames of 8 channels, which are the most samples that can be rearranged.
    ///
    /// # Errors
    /// The limiter's.
    pub fn render<T: Sample>(
        &mut self,
        limiter: &mut Limiter,
        audio: &mut [T],
    ) -> Result<(), Refusal> {
        let height = self.meter.take(audio);
        limiter.deinterleave(audio)?;
        let place = limiter.process(self.position, audio, &[])?;
        self.hear(place, height);
        self.position += (audio.len() / self.channels) as u64;
        limiter.interleave(audio)
    }

    /// Of equal heights the first stays.
    fn hear(&mut self, place: Option<PeakPlace>, height: f64) {
        let higher = self.highest.is_none_or(|h| height > h.height);
        if let Some(place) = place.filter(|_| higher) {
            self.highest = Some(Highest {
                height,
                position: self.position,
                place,
            });
        }
    }

    /// Ends the stream: what the meter read, and the highest peak. Peaks between the last
    /// samples are heard in the silence behind them, in which a drain tells no place;
    /// copies of limiter and meter hear it as blocks.
    ///
    /// # Errors
    /// The limiter's.
    pub fn finish(self, limiter: &Limiter) -> Result<(Measured, Option<Highest>), Refusal> {
        let (mut behind, mut limiter) = (self.clone(), limiter.clone());
        for _ in 0..TAIL {
            behind.render(&mut limiter, &mut vec![0.0; self.channels])?;
        }
        Ok((self.meter.finish(), behind.highest))
    }
}

#[cfg(test)]
mod tests {
    use super::*;

    fn heard(peaks: &[(Option<PeakPlace>, f64)]) -> Option<Highest> {
        let mut input = Input::new(&[true]);
        for (place, height) in peaks {
            input.hear(*place, *height);
            input.position += 100;
        }
        input.highest
    }

    #[test]
    fn the_first_of_the_highest_stays() {
        let place = |frame| Some(PeakPlace::OnSample { frame, channel: 0 });
        assert_eq!(heard(&[(None, 0.0), (None, 0.0)]), None);
        let peaks = [(None, 0.0), (place(7), 0.5), (place(3), 0.5)];
        let first = heard(&peaks).expect("a peak");
        assert_eq!((first.frame(), first.height), (107, 0.5));
        let peaks = [(place(7), 0.5), (place(3), 0.75), (place(1), 0.5)];
        assert_eq!(heard(&peaks).map(|h| h.frame()), Some(103));
    }

    #[test]
    fn an_instant_lies_in_the_file() {
        let at = |position, frame| {
            let place = PeakPlace::Between {
                frame,
                channel: 0,
                phase: 2,
            };
            let peak = Highest {
                height: 1.0,
                position,
                place,
            };
            peak.at(1000)
        };
        assert_eq!(at(0, 3), 0.0);
        assert_eq!(at(0, 6), 0.625);
        assert_eq!(at(100, 0), 94.625);
        assert_eq!(at(1005, 0), 999.625);
        assert_eq!(at(1010, 0), 1000.0);
    }
}
