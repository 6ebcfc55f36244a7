//! Where each thing stands in the words that cross. The proved side says it in
//! bank/specs/Words.antt and state_bytes/specs/State.antt; here it is said once.

/// A smoother's words.
pub mod smoother {
    pub const ID: usize = 0;
    pub const CUR: usize = 1;
    pub const TARGET: usize = 2;
    pub const LOW: usize = 3;
    pub const HIGH: usize = 4;
    pub const DEFAULT: usize = 5;
    pub const STEPS: usize = 6;
    pub const LEFT: usize = 7;
    pub const DELTA: usize = 8;
    pub const SHAPE: usize = 9;
    pub const COEFF: usize = 10;
    pub const MS: usize = 11;

    pub const WORDS: usize = 12;

    /// Those that are floats.
    pub const FLOATS: [usize; 9] = [CUR, TARGET, LOW, HIGH, DEFAULT, STEPS, DELTA, COEFF, MS];
}

/// A state's words.
pub mod state {
    use super::smoother;

    /// "Dyuz" and the layout's number.
    pub const LAYOUT: usize = 0;
    pub const THRESHOLD: usize = 1;
    pub const MARGIN: usize = 2;
    pub const LOOKAHEAD: usize = 3;
    pub const RELEASE: usize = 4;
    pub const RATE: usize = 5;
    pub const CHANNELS: usize = 6;
    pub const BLOCK: usize = 7;
    pub const RELEASE_COEFF: usize = 8;
    pub const LOOK: usize = 9;
    pub const HEAD: usize = 10;
    pub const LEN: usize = 11;
    pub const FRAME: usize = 12;
    pub const ROW_POS: usize = 13;
    pub const TALLY: usize = 14;
    pub const GAIN: usize = 15;
    pub const DELAY_POS: usize = 16;
    pub const TARGET: usize = 17;
    pub const DRAINED: usize = 18;
    /// The first of the threshold's smoother.
    pub const SMOOTHER: usize = 19;
    pub const COUNT: usize = SMOOTHER + smoother::WORDS;
    pub const BANK_RATE: usize = COUNT + 1;
    pub const READY: usize = COUNT + 2;
    /// The channels that are left out of the linked peak, a bit each.
    pub const LEFT_OUT: usize = COUNT + 3;

    /// The words that hold something; those behind them are 0.
    pub const USED: usize = LEFT_OUT + 1;
    pub const WORDS: usize = 64;

    /// Whether a word is a float.
    pub fn is_float(at: usize) -> bool {
        match at.checked_sub(SMOOTHER) {
            Some(at) => smoother::FLOATS.contains(&at),
            None => matches!(at, THRESHOLD..=RELEASE | RELEASE_COEFF | GAIN | TARGET),
        }
    }
}

/// The words of a bank as the probe has it: eight smoothers, then these. The
/// last two are a count and a float that a call tells.
#[cfg(feature = "probe")]
pub mod bank {
    use super::smoother;
    use crate::bank::MOST;

    pub const COUNT: usize = MOST * smoother::WORDS;
    pub const RATE: usize = COUNT + 1;
    pub const READY: usize = COUNT + 2;
    pub const TOLD_COUNT: usize = COUNT + 3;
    pub const TOLD_VALUE: usize = COUNT + 4;

    pub const WORDS: usize = COUNT + 5;
}
