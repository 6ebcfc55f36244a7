//! Values over time at a bounded length: however long the stream, a picture of
//! it is no wider.

/// Never more values than this, and at least half as many once they were merged.
const MOST: usize = 2400;

/// The highest or the lowest value of each stretch of frames.
#[derive(Clone, Debug)]
pub struct Series {
    pick: fn(f64, f64) -> f64,
    values: Vec<f64>,
    /// Frames that a value stands for, a power of 2.
    stretch: u64,
    frames: u64,
}

impl Series {
    /// Keeps the highest value of each stretch.
    #[must_use]
    pub fn highest() -> Self {
        Self::new(f64::max)
    }

    /// Keeps the lowest value of each stretch.
    #[must_use]
    pub fn lowest() -> Self {
        Self::new(f64::min)
    }

    fn new(pick: fn(f64, f64) -> f64) -> Self {
        Self {
            pick,
            values: Vec::new(),
            stretch: 1,
            frames: 0,
        }
    }

    /// Takes the next frame's value.
    pub fn push(&mut self, value: f64) {
        let fresh = self.frames.is_multiple_of(self.stretch);
        self.frames += 1;
        if fresh && self.values.len() == MOST {
            self.values = self
                .values
                .chunks(2)
                .map(|pair| pair.iter().copied().reduce(self.pick).unwrap_or(0.0))
                .collect();
            self.stretch *= 2;
        }
        match self.values.last_mut() {
            Some(last) if !fresh => *last = (self.pick)(*last, value),
            _ => self.values.push(value),
        }
    }

    /// Frames taken.
    #[must_use]
    pub fn frames(&self) -> u64 {
        self.frames
    }

    /// The frame at which a stretch starts, with its value.
    pub fn points(&self) -> impl Iterator<Item = (u64, f64)> + '_ {
        let starts = (0..).map(|i| i * self.stretch);
        starts.zip(self.values.iter().copied())
    }
}

#[cfg(test)]
mod tests {
    use super::*;

    #[test]
    fn a_long_stream_stays_short_and_keeps_its_peak() {
        let mut series = Series::highest();
        for i in 0..100_000_u32 {
            series.push(if i == 77_777 { 9.0 } else { 1.0 });
        }
        assert_eq!(series.frames(), 100_000);
        let points: Vec<_> = series.points().collect();
        assert!((MOST / 2..=MOST).contains(&points.len()));
        let (at, _) = points.iter().find(|p| p.1 == 9.0).expect("the peak");
        assert!(*at <= 77_777 && 77_777 < at + series.stretch);
        assert_eq!(points.iter().filter(|p| p.1 == 9.0).count(), 1);
    }

    #[test]
    fn a_short_stream_is_kept_as_it_is() {
        let mut series = Series::lowest();
        for x in [0.5, 0.25, 1.0] {
            series.push(x);
        }
        let points: Vec<_> = series.points().collect();
        assert_eq!(points, [(0, 0.5), (1, 0.25), (2, 1.0)]);
    }
}
