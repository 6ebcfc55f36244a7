//! A throat and a mouth: pulses through three resonances that move.

use std::f64::consts::{PI, TAU};

use super::RATE;

const FRAME: f64 = 1.0 / RATE as f64;

/// A resonance in two poles.
#[derive(Clone, Copy, Default)]
pub(super) struct Resonance {
    last: [f64; 2],
}

impl Resonance {
    /// Rings at `hz`, as wide as `width` Hz, with a gain of about 1 at rest.
    pub(super) fn ring(&mut self, x: f64, hz: f64, width: f64) -> f64 {
        let radius = libm::exp(-PI * width * FRAME);
        let turn = 2.0 * radius * libm::cos(TAU * hz * FRAME);
        let y = (1.0 - turn + radius * radius) * x + turn * self.last[0]
            - radius * radius * self.last[1];
        self.last = [y, self.last[0]];
        y
    }
}

/// The flow through the vocal folds, period after period.
#[derive(Default)]
pub(super) struct Throat {
    phase: f64,
    last: f64,
}

impl Throat {
    /// The change of Rosenberg's pulse at this pitch: slow to open, quick to
    /// close.
    pub(super) fn next(&mut self, hz: f64) -> f64 {
        self.phase += hz * FRAME;
        self.phase -= libm::floor(self.phase);
        let (open, close) = (0.40, 0.16);
        let flow = match self.phase {
            p if p < open => 0.5 - 0.5 * libm::cos(PI * p / open),
            p if p < open + close => libm::cos(0.5 * PI * (p - open) / close),
            _ => 0.0,
        };
        let change = flow - self.last;
        self.last = flow;
        change
    }
}

/// Where the mouth's first three resonances are, in Hz.
pub(super) type Shape = [f64; 3];

/// Between two shapes.
pub(super) fn between(from: Shape, to: Shape, part: f64) -> Shape {
    [0, 1, 2].map(|i| from[i] + (to[i] - from[i]) * part)
}

/// The mouth: three resonances one after the other.
#[derive(Default)]
pub(super) struct Mouth {
    resonances: [Resonance; 3],
}

impl Mouth {
    pub(super) fn shape(&mut self, x: f64, shape: Shape) -> f64 {
        let widths = [70.0, 100.0, 150.0];
        let mut y = x;
        for (resonance, (hz, width)) in self.resonances.iter_mut().zip(shape.iter().zip(widths)) {
            y = resonance.ring(y, *hz, width);
        }
        y
    }
}
