//! The channels that are left out, as they cross: the bits that setup is told, and the
//! state's word, which carries them.

use daggeryuzu::sys::{self, LentStores, SetupStores, ANSWER, STATE};
use daggeryuzu::{LimiterSettings, ProcessSpec};

const FRAMES: usize = 200;
const LOOK: usize = 16;
const L: usize = LOOK - 11;
const WEIGHTS: [f64; L] = [0.125, 0.1875, 0.375, 0.1875, 0.125];

/// The state's word that says which channels are left out, a bit each.
const LEFT_OUT: usize = 34;

/// Settings that look 16 frames ahead at 48,000.
fn settings() -> LimiterSettings {
    LimiterSettings::default().lookahead_ms(LOOK as f64 / 48.0)
}

fn spec(channels: usize) -> ProcessSpec {
    ProcessSpec {
        sample_rate: 48_000,
        channels,
        max_block: FRAMES,
        max_memory: None,
    }
}

/// State and stores of a limiter.
#[derive(Clone, Debug, PartialEq)]
struct Lent {
    state: Vec<u8>,
    delay: Vec<f64>,
    marks: [u64; LOOK + 1],
    minima: [f64; LOOK + 1],
    row: [f64; L],
    detector: Vec<f64>,
}

impl Lent {
    /// Set up by `set_up` on the stores that it is lent.
    fn new(channels: usize, set_up: impl FnOnce(&mut [u8], SetupStores<'_>) -> u32) -> Self {
        let mut lent = Self {
            state: vec![7; STATE],
            delay: vec![7.0; channels * LOOK],
            marks: [7; LOOK + 1],
            minima: [7.0; LOOK + 1],
            row: [7.0; L],
            detector: vec![7.0; channels * 12],
        };
        let stores = SetupStores {
            delay: &mut lent.delay,
            marks: &mut lent.marks,
            minima: &mut lent.minima,
            weights: &mut WEIGHTS.clone(),
            row: &mut lent.row,
            detector: &mut lent.detector,
        };
        assert_eq!(set_up(&mut lent.state, stores), 0);
        lent
    }

    /// Set up with these bits.
    fn leaving_out(channels: usize, left_out: u32) -> Self {
        Self::new(channels, |state, stores| {
            let (settings, spec) = (settings(), spec(channels));
            sys::setup_leaving_out(state, &mut [], settings, left_out, spec, false, stores)
        })
    }

    /// Set up with these settings.
    fn with(channels: usize, settings: LimiterSettings) -> Self {
        Self::new(channels, |state, stores| {
            sys::setup(state, &mut [], settings, spec(channels), false, stores)
        })
    }

    fn parts(&mut self) -> (&mut [u8], LentStores<'_>) {
        let stores = LentStores {
            delay: &mut self.delay,
            marks: &mut self.marks,
            minima: &mut self.minima,
            weights: &WEIGHTS,
            row: &mut self.row,
            detector: &mut self.detector,
        };
        (&mut self.state, stores)
    }

    fn word(&mut self, at: usize) -> &mut [u8] {
        &mut self.state[8 * at..8 * (at + 1)]
    }

    /// The word that says which channels are left out.
    fn left_out(&mut self) -> u64 {
        let word = &*self.word(LEFT_OUT);
        u64::from_le_bytes(word.try_into().expect("a word"))
    }
}

/// What a call left: its number, its answer and its audio.
type Left = (u32, [u64; ANSWER], Vec<u8>);

fn block(lent: &mut Lent, position: usize, mut audio: Vec<u8>) -> Left {
    let (position, mut answer, (state, stores)) = (position as u64, [7; ANSWER], lent.parts());
    let number = sys::process(
        state,
        &mut answer,
        position,
        FRAMES,
        &[],
        &mut audio,
        stores,
    );
    (number, answer, audio)
}

fn drain(lent: &mut Lent, mut audio: Vec<u8>) -> Left {
    let (mut answer, (state, stores)) = ([7; ANSWER], lent.parts());
    let number = sys::flush(state, &mut answer, FRAMES, &mut audio, stores);
    (number, answer, audio)
}

/// A block of noise within ±4, channel by channel half as loud.
fn noise(channels: usize, seed: usize) -> Vec<u8> {
    let mut x = (seed as u32 + 1).wrapping_mul(0x9e37_79b9) | 1;
    let sample = |i: usize| {
        x ^= x << 13;
        x ^= x >> 17;
        x ^= x << 5;
        let height = 4.0 / f64::from(1 << (i / FRAMES));
        (height * (f64::from(x) / 2_f64.powi(31) - 1.0)).to_le_bytes()
    };
    (0..channels * FRAMES).flat_map(sample).collect()
}

/// Blocks and a drain: all that they leave, but for the state.
fn played(lent: &mut Lent, channels: usize) -> Vec<Left> {
    let mut left: Vec<Left> = (0..3)
        .map(|n| block(lent, n * FRAMES, noise(channels, n)))
        .collect();
    left.push(drain(lent, noise(channels, 9)));
    assert!(left.iter().all(|(number, ..)| *number == 0));
    left
}

#[test]
fn the_settings_are_told_as_bits_and_the_state_carries_them() {
    assert_eq!(Lent::with(8, settings()).left_out(), 0);
    assert_eq!(Lent::with(8, settings()), Lent::leaving_out(8, 0));
    for channel in 0..8 {
        let mut lent = Lent::with(8, settings().leave_out(channel));
        assert_eq!(lent, Lent::leaving_out(8, 1 << channel));
        assert_eq!(lent.left_out(), 1 << channel);
        // and it is nowhere else
        lent.word(LEFT_OUT)[0] = 0;
        assert_eq!(lent, Lent::with(8, settings()));
    }
    let mut none = Lent::with(8, settings().counts([false; 8]));
    assert_eq!(none, Lent::leaving_out(8, 0xff));
    assert_eq!(none.left_out(), 0xff);
}

/// A state that was kept since before there was such a word has 0 there: every channel
/// counts, as it did.
#[test]
fn a_word_of_0_leaves_out_none() {
    let mut kept = Lent::leaving_out(2, 3);
    kept.word(LEFT_OUT).fill(0);
    assert_eq!(kept, Lent::leaving_out(2, 0));
}

/// Bits past the channels change no audio, no store and no answer; those from 8 on are
/// not kept either.
#[test]
fn bits_past_the_channels_mean_nothing() {
    for channels in 1..=8 {
        let mine = (1_u32 << channels) - 1;
        for left_out in [0, 1, mine, 0b101_0101 & mine] {
            let mut due = Lent::leaving_out(channels, left_out);
            let due_left = played(&mut due, channels);
            for past in [!0, 1 << 31, 1 << 8, 0xff, 1 << channels] {
                let mut lent = Lent::leaving_out(channels, left_out | past & !mine);
                assert!(
                    played(&mut lent, channels) == due_left,
                    "{channels}, {past:x}"
                );
                lent.state.clone_from(&due.state);
                assert!(lent == due, "{channels}, {past:x}");
            }
            let high = left_out | 0xffff_ff00;
            let (high, low) = [high, left_out]
                .map(|b| Lent::leaving_out(channels, b))
                .into();
            assert_eq!(high, low);
        }
    }
}

/// Delay and detector go on whether a channel counts or not, in blocks and drains.
#[test]
fn delay_and_detector_go_on() {
    let (mut all, mut none) = (Lent::leaving_out(3, 0), Lent::leaving_out(3, 7));
    let hears = |lent: &Lent| lent.detector.iter().any(|x| *x != 0.0);
    let same = |a: &Lent, b: &Lent| a.delay == b.delay && a.detector == b.detector;
    for n in 0..3 {
        let [a, b] = [&mut all, &mut none].map(|l| block(l, n * FRAMES, noise(3, n)));
        assert!((a.0, b.0) == (0, 0) && a.2 != b.2);
        assert!(same(&all, &none) && hears(&all));
    }
    let [a, b] = [&mut all, &mut none].map(|l| drain(l, noise(3, 9)));
    assert!((a.0, b.0) == (0, 0) && a.2 != b.2);
    // silence took the place of all that was heard
    assert!(same(&all, &none) && !hears(&all));
}

#[test]
fn a_reset_and_a_parameter_keep_the_words() {
    for left_out in [0, 0b101, 0xff] {
        let mut lent = Lent::leaving_out(3, left_out);
        let (started, word) = (lent.clone(), lent.left_out());
        let first = played(&mut lent, 3);
        assert_eq!(lent.left_out(), word);
        let (state, stores) = lent.parts();
        assert_eq!(sys::reset(state, &mut [], stores), 0);
        assert!(lent.state == started.state);
        assert!(played(&mut lent, 3) == first);
        let value = (-3.0_f64).to_bits();
        assert_eq!(sys::set_parameter(&mut lent.state, &mut [], 0, value), 0);
        assert_eq!(lent.left_out(), word);
    }
}

/// What each call answers to a state. It is refused, and so nothing changes.
fn refused_everywhere(lent: &Lent) -> [u32; 6] {
    let mut now = lent.clone();
    let audio = noise(2, 1);
    let (blocked, drained) = (
        block(&mut now, 0, audio.clone()),
        drain(&mut now, audio.clone()),
    );
    assert!(blocked.2 == audio && drained.2 == audio);
    let mut calls = [blocked.0, drained.0, 0, 0, 0, 0];
    let (state, stores) = now.parts();
    calls[2] = sys::reset(state, &mut [], stores);
    let (state, stores) = now.parts();
    calls[3] = sys::gain_step(state, &mut [], 0, stores);
    calls[4] = sys::parameter(&now.state, &mut [], 0);
    calls[5] = sys::set_parameter(&mut now.state, &mut [], 0, 0);
    assert!(now == *lent);
    calls
}

/// A ninth channel left out makes bytes that are no state; so does a word behind that is
/// not 0.
#[test]
fn other_words_are_no_state() {
    let good = Lent::leaving_out(2, 1);
    for word in LEFT_OUT..STATE / 8 {
        for byte in 0..8 {
            for bit in [1, 2, 0x80] {
                let mut lent = good.clone();
                let changed = &mut lent.word(word)[byte];
                *changed ^= bit;
                // any choice of eight channels is good
                if word == LEFT_OUT && byte == 0 {
                    continue;
                }
                assert_eq!(refused_everywhere(&lent), [18; 6], "{word}, {byte}, {bit}");
            }
        }
    }
}
