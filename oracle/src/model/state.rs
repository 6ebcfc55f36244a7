//! The state that crosses: 64 words of 8 bytes, low byte first, and what they
//! stand for.

use super::setup::{kept, look, Setup, CHANNELS};
use super::threshold::{declared, Smoother};
use crate::calls::{words, STATE};
use crate::layout::{smoother, state as at};

/// The first word, "Dyuz" and the layout's number.
const VERSION: u64 = 0x1_7a75_7944;

/// A limiter with its bank, as the words tell it.
#[derive(Clone, Copy, Debug, PartialEq)]
pub struct State {
    pub setup: Setup,
    pub release_coeff: f64,
    pub look: u64,
    pub head: u64,
    pub len: u64,
    pub frame: u64,
    pub row_pos: u64,
    pub tally: u64,
    pub gain: f64,
    pub delay_pos: u64,
    pub target: f64,
    pub drained: u64,
    pub threshold: Smoother,
    pub count: u64,
    pub bank_rate: u32,
    pub ready: bool,
}

impl State {
    /// A limiter that was never set up.
    pub const NEVER: Self = Self {
        setup: Setup {
            threshold: 0.0,
            margin: 0.0,
            lookahead: 0.0,
            release: 0.0,
            left_out: 0,
            rate: 0,
            channels: 0,
            block: 0,
        },
        release_coeff: 0.0,
        look: 0,
        head: 0,
        len: 0,
        frame: 0,
        row_pos: 0,
        tally: 0,
        gain: 1.0,
        delay_pos: 0,
        target: 0.0,
        drained: 0,
        threshold: Smoother::VACANT,
        count: 0,
        bank_rate: 0,
        ready: false,
    };

    /// What a finished setup leaves.
    pub fn started(setup: &Setup) -> Self {
        Self {
            setup: Setup {
                left_out: kept(setup.left_out),
                ..*setup
            },
            release_coeff: setup.release_coeff(),
            look: look(setup.lookahead, setup.rate),
            target: setup.target(),
            threshold: Smoother::new(&declared(setup.threshold), setup.rate),
            count: 1,
            bank_rate: setup.rate,
            ready: true,
            ..Self::NEVER
        }
    }

    /// What a finished reset leaves: the starting values, but for the size of
    /// the threshold's last step.
    pub fn reset(&mut self) {
        let mut threshold = self.threshold;
        threshold.reset();
        *self = Self {
            threshold,
            ..Self::started(&self.setup)
        };
    }

    /// The state that bytes tell, if they tell one.
    pub fn read(bytes: &[u8]) -> Option<Self> {
        if bytes.len() != STATE {
            return None;
        }
        let words = words(bytes);
        let small = |at: usize| words[at] <= u64::from(u32::MAX);
        let told = words[at::LAYOUT] == VERSION
            && small(at::RATE)
            && small(at::SMOOTHER + smoother::ID)
            && small(at::BANK_RATE)
            && words[at::SMOOTHER + smoother::SHAPE] <= 2
            && words[at::READY] <= 1
            && words[at::LEFT_OUT] < 1 << CHANNELS
            && words[at::USED..].iter().all(|&word| word == 0);
        told.then(|| Self::of(&words))
    }

    fn of(words: &[u64]) -> Self {
        let float = |at: usize| f64::from_bits(words[at]);
        Self {
            setup: Setup {
                threshold: float(at::THRESHOLD),
                margin: float(at::MARGIN),
                lookahead: float(at::LOOKAHEAD),
                release: float(at::RELEASE),
                left_out: words[at::LEFT_OUT] as u32,
                rate: words[at::RATE] as u32,
                channels: words[at::CHANNELS] as usize,
                block: words[at::BLOCK] as usize,
            },
            release_coeff: float(at::RELEASE_COEFF),
            look: words[at::LOOK],
            head: words[at::HEAD],
            len: words[at::LEN],
            frame: words[at::FRAME],
            row_pos: words[at::ROW_POS],
            tally: words[at::TALLY],
            gain: float(at::GAIN),
            delay_pos: words[at::DELAY_POS],
            target: float(at::TARGET),
            drained: words[at::DRAINED],
            threshold: Smoother::of(&words[at::SMOOTHER..]),
            count: words[at::COUNT],
            bank_rate: words[at::BANK_RATE] as u32,
            ready: words[at::READY] == 1,
        }
    }

    /// The bytes that tell it.
    pub fn bytes(&self) -> Vec<u8> {
        let s = &self.setup;
        let mut words = [0; at::WORDS];
        words[at::SMOOTHER..at::COUNT].copy_from_slice(&self.threshold.words());
        for (at, word) in [
            (at::LAYOUT, VERSION),
            (at::THRESHOLD, s.threshold.to_bits()),
            (at::MARGIN, s.margin.to_bits()),
            (at::LOOKAHEAD, s.lookahead.to_bits()),
            (at::RELEASE, s.release.to_bits()),
            (at::RATE, u64::from(s.rate)),
            (at::CHANNELS, s.channels as u64),
            (at::BLOCK, s.block as u64),
            (at::RELEASE_COEFF, self.release_coeff.to_bits()),
            (at::LOOK, self.look),
            (at::HEAD, self.head),
            (at::LEN, self.len),
            (at::FRAME, self.frame),
            (at::ROW_POS, self.row_pos),
            (at::TALLY, self.tally),
            (at::GAIN, self.gain.to_bits()),
            (at::DELAY_POS, self.delay_pos),
            (at::TARGET, self.target.to_bits()),
            (at::DRAINED, self.drained),
            (at::COUNT, self.count),
            (at::BANK_RATE, u64::from(self.bank_rate)),
            (at::READY, u64::from(self.ready)),
            (at::LEFT_OUT, u64::from(kept(s.left_out))),
        ] {
            words[at] = word;
        }
        words.into_iter().flat_map(u64::to_le_bytes).collect()
    }
}

#[cfg(test)]
mod tests {
    use super::*;

    #[test]
    fn a_state_comes_back_from_its_bytes() {
        const SHAPE: usize = at::SMOOTHER + smoother::SHAPE;
        let words = (0..at::USED).map(|at| match at {
            at::LAYOUT => VERSION,
            SHAPE | at::READY => 1,
            at::LEFT_OUT => 0b1000_0010,
            at => 1_000 + at as u64,
        });
        let mut bytes: Vec<u8> = words.flat_map(u64::to_le_bytes).collect();
        bytes.resize(STATE, 0);
        let state = State::read(&bytes).expect("a state");
        assert_eq!(state.bytes(), bytes);
        assert_eq!((state.frame, state.threshold.left), (1_012, 1_026));
        assert_eq!(state.setup.left_out, 0b1000_0010);
    }

    /// Word 34, and 0 behind it.
    #[test]
    fn who_is_left_out_stands_in_one_word() {
        let at = |left_out: u32| {
            let setup = Setup {
                left_out,
                ..State::NEVER.setup
            };
            let words = words(&State::started(&setup).bytes());
            assert!(words[35..].iter().all(|&word| word == 0));
            words[34]
        };
        assert_eq!(at(0), 0);
        assert_eq!(at(8), 8);
        // Bits past the eighth are not kept.
        assert_eq!(at(0xffff_ff41), 0x41);
        assert_eq!(words(&State::NEVER.bytes())[34], 0);
    }

    #[test]
    fn a_reset_keeps_who_counts() {
        let mut state = State::NEVER;
        state.setup.left_out = 0b0100_1001;
        state.reset();
        assert_eq!(state.setup.left_out, 0b0100_1001);
    }

    #[test]
    fn other_bytes_are_no_state() {
        let good = State::NEVER.bytes();
        assert_eq!(State::read(&good), Some(State::NEVER));
        for length in [0, 8, 511, 513, 520] {
            let mut bytes = good.clone();
            bytes.resize(length, 0);
            assert_eq!(State::read(&bytes), None);
        }
        // The version; high halves; shape 4; ready 2; a ninth channel left out, and a
        // 64th; room to grow from its first word on.
        for (byte, bit) in [
            (4, 1),
            (44, 0),
            (156, 7),
            (260, 0),
            (224, 2),
            (264, 1),
            (273, 0),
            (279, 7),
            (280, 0),
            (511, 0),
        ] {
            let mut bytes = good.clone();
            bytes[byte] ^= 1 << bit;
            assert_eq!(State::read(&bytes), None, "{byte}");
        }
    }
}
