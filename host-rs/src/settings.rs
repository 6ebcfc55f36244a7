//! What a limiter is set up with.

/// The most channels that a limiter has.
pub const MOST_CHANNELS: usize = 8;

/// The limiter's settings; each setter hands them back with one field changed.
#[derive(Clone, Copy, Debug, PartialEq)]
pub struct LimiterSettings {
    /// Ceiling in dBFS, −30 to 0.
    pub threshold_db: f64,
    /// Margin below it, 0 to 30 dB.
    pub true_peak_margin_db: f64,
    /// Lookahead in ms; it makes the latency.
    pub lookahead_ms: f64,
    /// Release time in ms, 0 or 0.01 to 10,000.
    pub release_ms: f64,
    /// Whether a channel counts in the linked peak, which the gain is made from; all do
    /// by default. One that does not is left out: it is delayed and scaled by the gain of
    /// the others, and **it is not kept below the target**, since nobody looks at its own
    /// peaks. With none counted nothing is limited. Entries past the number of channels
    /// mean nothing.
    pub counts: [bool; MOST_CHANNELS],
}

impl Default for LimiterSettings {
    fn default() -> Self {
        Self {
            threshold_db: -1.0,
            true_peak_margin_db: 0.1,
            lookahead_ms: 1.5,
            release_ms: 50.0,
            counts: [true; MOST_CHANNELS],
        }
    }
}

impl LimiterSettings {
    /// Sets the ceiling.
    #[must_use]
    pub fn threshold_db(mut self, db: f64) -> Self {
        self.threshold_db = db;
        self
    }

    /// Sets the margin.
    #[must_use]
    pub fn true_peak_margin_db(mut self, db: f64) -> Self {
        self.true_peak_margin_db = db;
        self
    }

    /// Sets the lookahead.
    #[must_use]
    pub fn lookahead_ms(mut self, ms: f64) -> Self {
        self.lookahead_ms = ms;
        self
    }

    /// Sets the release time.
    #[must_use]
    pub fn release_ms(mut self, ms: f64) -> Self {
        self.release_ms = ms;
        self
    }

    /// Sets which channels count.
    #[must_use]
    pub fn counts(mut self, counts: [bool; MOST_CHANNELS]) -> Self {
        self.counts = counts;
        self
    }

    /// Leaves one more channel out, counted from 0. It is not kept below the target: see
    /// [`counts`](Self#structfield.counts). There is none past the eighth.
    ///
    /// ```
    /// use daggeryuzu::LimiterSettings;
    ///
    /// // the bass channel of a 5.1 file: thunder does not duck the voices
    /// let settings = LimiterSettings::default().leave_out(3);
    /// let counts = [true, true, true, false, true, true, true, true];
    /// assert_eq!(settings, LimiterSettings::default().counts(counts));
    /// ```
    #[must_use]
    pub fn leave_out(mut self, channel: usize) -> Self {
        if let Some(counts) = self.counts.get_mut(channel) {
            *counts = false;
        }
        self
    }

    /// The channels that do not count, as the C function takes them: bit `c` for
    /// channel `c`.
    #[must_use]
    pub fn left_out(&self) -> u32 {
        let channels = self.counts.iter().enumerate();
        channels.fold(0, |bits, (c, counts)| bits | u32::from(!counts) << c)
    }
}

/// What the host asks for.
#[derive(Clone, Copy, Debug, PartialEq, Eq)]
pub struct ProcessSpec {
    /// Frames a second, 8,000 to 192,000.
    pub sample_rate: u32,
    /// Channels, 1 to 8.
    pub channels: usize,
    /// The largest block, at most 65,536 frames.
    pub max_block: usize,
    /// A cap on bytes; none means no limit.
    pub max_memory: Option<u64>,
}
