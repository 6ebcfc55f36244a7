//! One gain step and one frame, as document 01 tells them, on the stores as
//! they are lent.

use super::judge::keeping;
use super::keeper::Keeping;
use super::place::{hear, linked, Frame};
use super::state::State;
use crate::calls::{floats, Stores, DETECTOR, ROW};
use crate::dsp::sanitize::finite_or_zero;

/// A limiter that takes frames: its state and what its stores hold.
pub struct Machine {
    pub state: State,
    keeping: Keeping,
    delay: Vec<f64>,
    weights: Vec<f64>,
    row: Vec<f64>,
    detector: Vec<f64>,
}

/// What a gain step shows.
pub struct Shown {
    pub floor: f64,
    pub dropped: u64,
    pub kept: u64,
    pub mean: f64,
}

impl Machine {
    pub fn new(state: &State, stores: &Stores) -> Self {
        let [delay, _, _, weights, row, detector] = &stores.0;
        Self {
            state: *state,
            keeping: keeping(state, stores),
            delay: floats(delay),
            weights: floats(weights),
            row: floats(row),
            detector: floats(detector),
        }
    }

    /// Put the stores back; the weights are only read.
    pub fn leave(mut self, stores: &mut Stores) -> State {
        let bits = |x: &[f64]| -> Vec<u64> { x.iter().map(|x| x.to_bits()).collect() };
        stores.0[0] = bits(&self.delay);
        stores.0[2] = bits(&self.keeping.minima);
        stores.0[ROW] = bits(&self.row);
        stores.0[DETECTOR] = bits(&self.detector);
        stores.0[1] = self.keeping.marks;
        let [_, head, len, frame] = self.keeping.state;
        self.state.head = head;
        self.state.len = len;
        self.state.frame = frame;
        self.state
    }

    /// One gain step: floor, row, mean, gain.
    pub fn gain_step(&mut self, required: f64) -> Shown {
        let front = self.keeping.stepped(required);
        let oldest = self.state.row_pos as usize;
        self.row[oldest] = front.floor;
        self.state.row_pos = ((oldest + 1) % self.row.len()) as u64;
        self.state.tally = self.row.iter().filter(|x| **x != 1.0).count() as u64;
        let mean = self.mean(oldest);
        self.follow(mean);
        Shown {
            floor: front.floor,
            dropped: front.dropped,
            kept: front.kept,
            mean,
        }
    }

    /// The first weight times the newest floor, and so on back in time.
    fn mean(&self, newest: usize) -> f64 {
        if self.state.tally == 0 {
            return 1.0;
        }
        let rows = self.row.len();
        let mut sum = 0.0;
        for (back, weight) in self.weights.iter().enumerate() {
            sum += weight * self.row[(newest + rows - back) % rows];
        }
        sum
    }

    /// Down at once, up by the release coefficient.
    fn follow(&mut self, mean: f64) {
        let unit = |x: f64| finite_or_zero(x).clamp(0.0, 1.0);
        let gain = unit(self.state.gain);
        let next = if mean <= gain {
            mean
        } else {
            gain + (mean - gain) * self.state.release_coeff
        };
        self.state.gain = unit(next);
    }

    /// A frame's samples, heard by the detectors.
    pub fn hear(&mut self, samples: &[f64]) -> Frame {
        hear(samples, &mut self.detector, self.state.setup.left_out)
    }

    /// One frame at a target: a sample of each channel for one that leaves.
    pub fn frame(&mut self, heard: &Frame, target: f64) -> Vec<f64> {
        let required = target / linked(heard);
        let above = required.is_nan() || required > 1.0;
        self.gain_step(if above { 1.0 } else { required });
        self.delayed(heard)
    }

    /// What leaves each channel's line, times the gain; the samples take its
    /// place.
    fn delayed(&mut self, heard: &Frame) -> Vec<f64> {
        let (look, at) = (self.state.look as usize, self.state.delay_pos as usize);
        let mut outputs = Vec::with_capacity(heard.len());
        for (channel, heard) in heard.iter().enumerate() {
            let place = &mut self.delay[channel * look + at];
            outputs.push(given_out(finite_or_zero(*place) * self.state.gain));
            *place = heard.sample;
        }
        self.state.delay_pos = ((at + 1) % look) as u64;
        outputs
    }
}

/// An output below 1e-30 in magnitude is +0.0.
fn given_out(x: f64) -> f64 {
    if x.abs() < 1e-30 {
        0.0
    } else {
        finite_or_zero(x)
    }
}
