//! Document 01's table of refusals.

use std::fmt;

/// Why a call was refused: the table's number and the values that go with it.
#[derive(Clone, Copy, Debug, PartialEq, Eq)]
pub struct Refusal {
    number: u32,
    values: [u64; 2],
}

impl Refusal {
    pub(crate) fn new(number: u32, values: [u64; 2]) -> Self {
        Self { number, values }
    }

    /// The table's number.
    #[must_use]
    pub fn number(self) -> u32 {
        self.number
    }

    /// What it means.
    #[must_use]
    pub fn meaning(self) -> &'static str {
        match self.number {
            1 => "more than 8 parameters",
            2 => "a parameter's id is not its index",
            3 => "a parameter's range is not finite or reversed",
            4 => "the threshold is not finite",
            5 => "the threshold is outside -30 to 0 dB",
            6 => "a smoothing time is not above 0 and at most 10,000 ms",
            7 => "the parameter bank is over the memory cap",
            8 => "the rate is outside 8,000 to 192,000",
            9 => "the margin is not within 0 to 30 dB",
            10 => "the lookahead is not above 0 ms",
            11 => "the release is not 0 or 0.01 to 10,000 ms",
            12 => "the lookahead is not 11 to 4,096 frames",
            13 => "not 1 to 8 channels",
            14 => "the largest block is over 65,536 frames",
            15 => "the limiter is over what is left of the memory cap",
            16 => "a buffer has a wrong length",
            17 => "the weights are not accepted",
            18 => "the limiter is not set up",
            19 => "state or stores are out of order",
            20 => "too many frames, or audio of another length",
            21 => "an event is out of place or not finite",
            22 => "too far: the position or the frames since reset",
            23 => "the value is not finite",
            24 => "there is no such parameter",
            27 => "not 1 to 8 channels to rearrange",
            28 => "over 524,288 samples to rearrange, or not whole frames",
            29 => "no house weights for the rate and lookahead",
            _ => "not a number of the table",
        }
    }
}

impl fmt::Display for Refusal {
    fn fmt(&self, f: &mut fmt::Formatter<'_>) -> fmt::Result {
        write!(f, "{} (refusal {}", self.meaning(), self.number)?;
        let [first, second] = self.values;
        match self.number {
            7 | 15 => write!(f, ", {first} bytes needed, {second} allowed)"),
            2..=6 | 21 => write!(f, ", index {first})"),
            23 => write!(f, ", id {first}, {})", f64::from_bits(second)),
            _ => write!(f, ")"),
        }
    }
}

impl std::error::Error for Refusal {}
