//! Each call of the limiter, on what a host lends: the refusal or the work, the
//! answer's words, and state and stores afterwards.

use super::frames::Machine;
use super::house;
use super::judge::{self, Told};
use super::place::place;
use super::setup::{look, Setup};
use super::state::State;
use crate::audio::Audio;
use crate::calls::{Call, Lent, DETECTOR, ROW, STATE, WEIGHTS};

pub use super::judge::{needed, BANK_BYTES};

/// The bank is stepped at multiples of this many frames.
const CELL: u64 = 32;

/// Play a call.
pub fn call(lent: &mut Lent, call: &mut Call) -> u32 {
    let told = match judged(lent, call) {
        Ok(()) => played(lent, call),
        Err(refused) => {
            if matches!(call, Call::Setup { .. }) {
                leave_state(lent, &State::NEVER);
            }
            refused
        }
    };
    lent.tell(&told.values);
    told.number
}

/// Whether the table accepts a call; nothing is played.
pub fn accepts(lent: &Lent, call: &Call) -> bool {
    judged(lent, call).is_ok()
}

fn judged(lent: &Lent, call: &Call) -> Result<(), Told> {
    match call {
        Call::Setup { setup, cap, house } => judge::setup(setup, *cap, *house, lent),
        Call::Look { .. } | Call::Bytes { .. } | Call::House { .. } => Ok(()),
        _ => match State::read(&lent.state) {
            Some(state) => judged_state(&state, lent, call),
            None => Err(Told::number(18)),
        },
    }
}

/// A call of something that is a state.
fn judged_state(state: &State, lent: &Lent, call: &Call) -> Result<(), Told> {
    match call {
        Call::Setup { .. } | Call::Look { .. } | Call::Bytes { .. } | Call::House { .. } => Ok(()),
        Call::Process {
            position,
            frames,
            events,
            audio,
        } => judge::block(state, lent, *position, *frames, events, audio),
        Call::Flush { frames, audio } => judge::drain(state, lent, *frames, audio),
        Call::Set { id, bits } => judge::parameter(state, *id, *bits),
        Call::Read { id } => judge::reading(state, *id),
        Call::Reset => judge::lent_fits(state, lent),
        Call::GainStep { .. } => judge::gain_step(state, lent),
    }
}

/// The work of a call that the table accepts.
fn played(lent: &mut Lent, call: &mut Call) -> Told {
    match call {
        Call::Setup { setup, house, .. } => set_up(lent, setup, *house),
        Call::Look { lookahead, rate } => Told::with(0, &[look(*lookahead, *rate)]),
        Call::Bytes { channels, look } => Told::with(0, &[BANK_BYTES + needed(*channels, *look)]),
        Call::House { rate, look } => {
            let has = house::place(*rate, *look).is_some();
            Told::with(0, &[u64::from(has)])
        }
        _ => {
            let state = State::read(&lent.state).expect("judged to be a state");
            work(&state, lent, call)
        }
    }
}

fn set_up(lent: &mut Lent, setup: &Setup, house: bool) -> Told {
    leave_state(lent, &State::started(setup));
    fill(lent, &[0, 1, 2, DETECTOR]);
    if house {
        let look = look(setup.lookahead, setup.rate);
        let table = house::table(setup.rate, look).expect("judged to be there");
        lent.stores.0[WEIGHTS] = table.iter().map(|w| w.to_bits()).collect();
    }
    Told::number(0)
}

/// Setup leaves a state where there is room for one, refused or not.
fn leave_state(lent: &mut Lent, state: &State) {
    if lent.state.len() == STATE {
        lent.state = state.bytes();
    }
}

/// Fill these stores with 0, and the row with 1.0.
fn fill(lent: &mut Lent, zeroed: &[usize]) {
    for &which in zeroed {
        lent.stores.0[which].fill(0);
    }
    lent.stores.0[ROW].fill(1.0f64.to_bits());
}

/// The work on a state.
fn work(state: &State, lent: &mut Lent, call: &mut Call) -> Told {
    match call {
        Call::Setup { .. } | Call::Look { .. } | Call::Bytes { .. } | Call::House { .. } => {
            unreachable!("these ask for no state")
        }
        Call::Process {
            position,
            frames,
            events,
            audio,
        } => process(state, lent, *position, *frames, events, audio),
        Call::Flush { frames, audio } => flush(state, lent, *frames, audio),
        Call::Set { bits, .. } => set(state, lent, f64::from_bits(*bits)),
        Call::Read { .. } => Told::with(0, &[state.threshold.cur.to_bits()]),
        Call::Reset => reset(state, lent),
        Call::GainStep { bits } => gain_step(state, lent, f64::from_bits(*bits)),
    }
}

/// A block, frame by frame; it tells where its peak sat.
fn process(
    state: &State,
    lent: &mut Lent,
    position: u64,
    frames: u64,
    events: &[u64],
    audio: &mut Audio,
) -> Told {
    let mut machine = Machine::new(state, &lent.stores);
    let mut waiting: Vec<&[u64]> = events.chunks_exact(3).rev().collect();
    let mut all = Vec::new();
    for i in 0..frames {
        let grid = (position + i).is_multiple_of(CELL);
        if grid || i == 0 {
            latch(&mut machine.state, &mut waiting, i);
            start_run(&mut machine.state, grid);
        }
        let target = machine.state.target;
        let places = places(state.setup.channels, frames, i);
        let samples: Vec<f64> = places.iter().map(|&at| audio.sample(at)).collect();
        let heard = machine.hear(&samples);
        put(audio, &places, &machine.frame(&heard, target));
        all.push(heard);
    }
    latch(&mut machine.state, &mut waiting, u64::MAX);
    leave(machine, lent);
    Told::with(0, &place(&all).words())
}

/// What happens at a run's first frame, behind the latch.
fn start_run(state: &mut State, grid: bool) {
    if grid {
        state.threshold.step();
    }
    let threshold = state.threshold.cur;
    state.target = Setup {
        threshold,
        ..state.setup
    }
    .target();
    state.drained = 0;
}

/// Latch the events stamped at or before a frame; they wait last first.
fn latch(state: &mut State, waiting: &mut Vec<&[u64]>, upto: u64) {
    while let Some(event) = waiting.pop_if(|event| event[0] <= upto) {
        if event[1] < state.count {
            state.threshold.aim(f64::from_bits(event[2]));
        }
    }
}

/// The place of each channel's sample of a frame.
fn places(channels: usize, frames: u64, frame: u64) -> Vec<usize> {
    let place = |channel: usize| channel * frames as usize + frame as usize;
    (0..channels).map(place).collect()
}

/// Outputs into their places.
fn put(audio: &mut Audio, places: &[usize], outputs: &[f64]) {
    for (&at, &output) in places.iter().zip(outputs) {
        audio.put(at, output);
    }
}

/// A drain: silence at the kept target.
fn flush(state: &State, lent: &mut Lent, frames: u64, audio: &mut Audio) -> Told {
    let mut machine = Machine::new(state, &lent.stores);
    let written = frames.min(state.look - state.drained);
    let silence = vec![0.0; state.setup.channels];
    for i in 0..written {
        let places = places(state.setup.channels, frames, i);
        let heard = machine.hear(&silence);
        put(audio, &places, &machine.frame(&heard, state.target));
    }
    machine.state.drained += written;
    let done = machine.state.drained >= state.look;
    leave(machine, lent);
    Told::with(0, &[written, u64::from(done)])
}

fn leave(machine: Machine, lent: &mut Lent) {
    lent.state = machine.leave(&mut lent.stores).bytes();
}

/// The parameter call.
fn set(state: &State, lent: &mut Lent, value: f64) -> Told {
    let mut state = *state;
    state.threshold.set(value);
    lent.state = state.bytes();
    Told::number(0)
}

/// Starting values again; marks and minima stay.
fn reset(state: &State, lent: &mut Lent) -> Told {
    let mut state = *state;
    state.reset();
    lent.state = state.bytes();
    fill(lent, &[0, DETECTOR]);
    Told::number(0)
}

fn gain_step(state: &State, lent: &mut Lent, gain: f64) -> Told {
    let mut machine = Machine::new(state, &lent.stores);
    let shown = machine.gain_step(gain);
    let (tally, gain) = (machine.state.tally, machine.state.gain);
    leave(machine, lent);
    let (floor, mean) = (shown.floor.to_bits(), shown.mean.to_bits());
    let values = [
        floor,
        shown.dropped,
        shown.kept,
        tally,
        mean,
        gain.to_bits(),
    ];
    Told::with(0, &values)
}

#[cfg(test)]
mod tests {
    use super::*;
    use crate::audio::{Crossing as _, Format};
    use crate::calls::words;
    use crate::layout::{smoother, state as at};
    use crate::whole::Rust;

    /// Document 01's own example: look 72, L 61, 4,256 bytes.
    const STEREO: Setup = Setup {
        threshold: -1.0,
        margin: 0.1,
        lookahead: 1.5,
        release: 50.0,
        left_out: 0,
        rate: 48_000,
        channels: 2,
        block: 512,
    };

    fn fresh() -> Lent {
        Rust::new(&STEREO, None, Format::F64)
            .expect("good settings")
            .lent()
    }

    /// A setup that asks for no house table.
    fn setup(setup: Setup, cap: Option<u64>) -> Call {
        let house = false;
        Call::Setup { setup, cap, house }
    }

    fn told(lent: &mut Lent, mut asked: Call) -> (u32, Vec<u64>) {
        let number = call(lent, &mut asked);
        (number, lent.answer.clone())
    }

    fn block(position: u64, frames: u64, events: &[u64]) -> Call {
        Call::Process {
            position,
            frames,
            events: events.to_vec(),
            audio: Audio::of(&vec![0.5; 2 * frames as usize]),
        }
    }

    /// A word of the threshold's smoother.
    fn of_threshold(lent: &Lent, at: usize) -> u64 {
        f64::read(&lent.state[8 * (at::SMOOTHER + at)..]).to_bits()
    }

    #[test]
    fn document_01_cap_rows() {
        for (cap, number, values) in [
            (4_336, 0, [0, 0]),
            (4_335, 15, [4_256, 4_255]),
            (79, 7, [80, 79]),
        ] {
            let cap = Some(cap);
            let (seen, answer) = told(&mut fresh(), setup(STEREO, cap));
            assert_eq!((seen, &answer[..2]), (number, &values[..]));
            let refused = Rust::new(&STEREO, cap, Format::F64).err();
            let expected = format!("needs {} bytes, cap is {}", values[0], values[1]);
            assert_eq!(refused.is_some(), number != 0);
            assert!(refused.is_none_or(|line| line.contains(&expected)));
        }
    }

    #[test]
    fn document_01_drains() {
        let mut lent = fresh();
        for (written, done) in [(50, 0), (22, 1), (0, 1)] {
            let frames = 50;
            let audio = Audio::of(&[7.0; 100]);
            let (number, answer) = told(&mut lent, Call::Flush { frames, audio });
            assert_eq!((number, answer[0], answer[1]), (0, written, done));
        }
    }

    /// The bank's steps: updates left of the eight that a new target starts.
    #[test]
    fn document_01_runs() {
        let event = [0, 0, (-4.0f64).to_bits()];
        for (position, frames, left) in [(0, 64, 6), (33, 40, 7), (33, 31, 8), (32, 1, 7)] {
            let mut lent = fresh();
            assert_eq!(call(&mut lent, &mut block(position, frames, &event)), 0);
            assert_eq!(of_threshold(&lent, smoother::LEFT), left);
        }
    }

    #[test]
    fn document_01_threshold_row() {
        let mut lent = fresh();
        let event = [0, 0, (-4.0f64).to_bits()];
        for turn in 0..8 {
            let events = if turn == 0 { &event[..] } else { &[] };
            call(&mut lent, &mut block(32 * turn, 32, events));
            let (number, answer) = told(&mut lent, Call::Read { id: 0 });
            assert_eq!(number, 0);
            assert_eq!(f64::from_bits(answer[0]) == -4.0, turn == 7);
        }
    }

    /// Everything wrong at once, mended one after the other.
    #[test]
    fn a_block_is_refused_in_the_tables_order() {
        let mut lent = fresh();
        let good = lent.clone();
        lent.state[0] ^= 1;
        lent.stores.0[0].pop();
        lent.state[8 * at::GAIN..8 * (at::GAIN + 1)].fill(0xff);
        let nan = f64::NAN.to_bits();
        let mut asked = block(1 << 62, 600, &[3, 0, 0, 2, 0, 0, 700, 0, nan]);
        let judged = |lent: &mut Lent, asked: &Call| told(lent, asked.clone());
        assert_eq!(judged(&mut lent, &asked).0, 18);
        lent.state[0] ^= 1;
        assert_eq!(judged(&mut lent, &asked).0, 16);
        lent.stores.0[0].push(0);
        assert_eq!(judged(&mut lent, &asked).0, 19);
        lent.state = good.state;
        assert_eq!(judged(&mut lent, &asked).0, 20);
        asked = block(1 << 62, 500, &[3, 0, 0, 2, 0, 0]);
        let (number, answer) = judged(&mut lent, &asked);
        assert_eq!((number, answer[0]), (21, 1));
        asked = block(1 << 62, 500, &[2, 0, 0, 3, 0, 0, 9]);
        assert_eq!(judged(&mut lent, &asked).0, 22);
        asked = block((1 << 62) - 500, 500, &[]);
        assert_eq!(judged(&mut lent, &asked).0, 0);
    }

    /// Samples that are all alike overshoot where they begin, between the first
    /// ones, which the detector hears six frames later.
    #[test]
    fn a_block_tells_where_its_peak_sat() {
        let mut lent = fresh();
        for (frames, place) in [(0, [0; 4]), (6, [1, 0, 0, 0]), (500, [2, 0, 0, 1])] {
            let (number, answer) = told(&mut lent, block(0, frames, &[]));
            assert_eq!(
                (number, &answer[..4], &answer[4..]),
                (0, &place[..], &[0; 4][..])
            );
        }
        // A drain tells none.
        let (frames, audio) = (50, Audio::of(&[7.0; 100]));
        let (_, answer) = told(&mut lent, Call::Flush { frames, audio });
        assert_eq!(answer, [50, 0, 0, 0, 0, 0, 0, 0]);
    }

    /// A stereo limiter that leaves channels out, after a block with a quiet channel 0
    /// and a loud channel 1: it, the block's last frame, and where the peak sat.
    fn thunder(left_out: u32) -> (Lent, [f64; 2], Vec<u64>) {
        let setup = Setup { left_out, ..STEREO };
        let rust = Rust::new(&setup, None, Format::F64).expect("good settings");
        let mut lent = rust.lent();
        let mut asked = Call::Process {
            position: 0,
            frames: 200,
            events: Vec::new(),
            audio: Audio::of(&[vec![0.01; 200], vec![4.0; 200]].concat()),
        };
        assert_eq!(call(&mut lent, &mut asked), 0);
        let audio = asked.audio().expect("a block's");
        let last = [199, 399].map(|at| audio.sample(at));
        let place = lent.answer[..4].to_vec();
        (lent, last, place)
    }

    /// Whoever counts, one gain scales both channels, and no detector stands still.
    #[test]
    fn a_channel_left_out_does_not_duck_the_others() {
        for (left_out, ducked, channel) in [
            (0b00, true, Some(1)),
            (0b01, true, Some(1)),
            (0b10, false, Some(0)),
            (0b11, false, None),
            (0b1111_1100, true, Some(1)),
            (0b1000_0010, false, Some(0)),
            (1 << 31 | 0b10, false, Some(0)),
        ] {
            let (lent, last, place) = thunder(left_out);
            let gain = f64::read(&lent.state[8 * at::GAIN..]);
            assert_eq!(last, [0.01 * gain, 4.0 * gain]);
            assert_eq!(gain < 0.3, ducked);
            assert_eq!(gain == 1.0, !ducked);
            // Both overshoot six frames on, between the first samples of all.
            let due = channel.map_or([0; 4], |channel| [2, 6, channel, 1]);
            assert_eq!(place, due, "{left_out}");
            let heard = [vec![0.01f64; 12], vec![4.0; 12]].concat();
            let heard: Vec<u64> = heard.iter().map(|x| x.to_bits()).collect();
            assert_eq!(lent.stores.0[DETECTOR], heard);
        }
    }

    /// A drain is silence for all detectors, and its gain is of those that count: the
    /// loud samples that are left leave ducked or as they came.
    #[test]
    fn a_drain_goes_on_without_the_channels_left_out() {
        for (left_out, ducked) in [(0b00, true), (0b01, true), (0b10, false), (0b11, false)] {
            let (mut lent, _, _) = thunder(left_out);
            let mut asked = Call::Flush {
                frames: 5,
                audio: Audio::of(&[7.0; 10]),
            };
            assert_eq!(call(&mut lent, &mut asked), 0);
            let audio = asked.audio().expect("a drain's");
            assert_eq!(
                [4, 9].map(|at| audio.sample(at) < 0.3 * [0.01, 4.0][at / 5]),
                [ducked; 2]
            );
            let twelve = |x: f64| [vec![0; 5], vec![x.to_bits(); 7]].concat();
            assert_eq!(
                lent.stores.0[DETECTOR],
                [twelve(0.01), twelve(4.0)].concat()
            );
        }
    }

    /// Calls keep what setup left.
    #[test]
    fn who_counts_is_kept() {
        let (mut lent, _, _) = thunder(0b1111_0000_0000_1010);
        let bits = 0.5f64.to_bits();
        for asked in [
            block(200, 40, &[]),
            Call::Set { id: 0, bits },
            Call::GainStep { bits },
            Call::Reset,
            Call::Read { id: 0 },
        ] {
            assert_eq!(told(&mut lent, asked).0, 0);
            assert_eq!(words(&lent.state)[at::LEFT_OUT], 0b1010);
        }
    }

    #[test]
    fn a_parameter_call_tells_the_value_that_it_refuses() {
        let mut lent = fresh();
        let bits = 0xfff8_1234_0000_0001;
        let (number, answer) = told(&mut lent, Call::Set { id: 9, bits });
        assert_eq!((number, answer[0], answer[1]), (23, 9, bits));
        let bits = 1.0f64.to_bits();
        assert_eq!(told(&mut lent, Call::Set { id: 9, bits }).0, 24);
        assert_eq!(told(&mut lent, Call::Set { id: 0, bits }).0, 0);
        for at in [smoother::CUR, smoother::TARGET] {
            assert_eq!(of_threshold(&lent, at), 0.0f64.to_bits());
        }
    }

    /// Eight words, as many as fit; what stands behind them stays.
    #[test]
    fn an_answer_of_any_length_is_told_as_far_as_it_fits() {
        let bits = f64::INFINITY.to_bits();
        let told_words = [9, bits, 0, 0, 0, 0, 0, 0, 7, 7];
        for length in 0..=10 {
            let mut lent = fresh();
            lent.answer = vec![7; length];
            let (number, answer) = told(&mut lent, Call::Set { id: 9, bits });
            assert_eq!((number, &answer[..]), (23, &told_words[..length]));
            assert_eq!(told(&mut lent, setup(STEREO, None)).0, 0);
        }
    }

    /// A state buffer of another length: 18, but for setup.
    #[test]
    fn a_state_of_another_length_is_16_of_setup_and_stays() {
        let cap = Some(4_335);
        for length in [0, 511, 513] {
            let mut lent = fresh();
            lent.state.resize(length, 1);
            let before = lent.state.clone();
            for (cap, number) in [(cap, 15), (None, 16)] {
                let (seen, _) = told(&mut lent, setup(STEREO, cap));
                assert_eq!((seen, &lent.state), (number, &before));
            }
            assert_eq!(told(&mut lent, Call::Read { id: 0 }).0, 18);
        }
    }

    #[test]
    fn a_refused_setup_leaves_a_limiter_never_set_up() {
        let mut lent = fresh();
        let slow = Setup {
            rate: 7_999,
            ..STEREO
        };
        let (number, _) = told(&mut lent, setup(slow, None));
        assert_eq!(number, 8);
        assert_eq!(lent.state, State::NEVER.bytes());
        assert_eq!(told(&mut lent, Call::Reset).0, 18);
    }

    /// A setup of look 72 that asks for a house table, which 48,000 alone has.
    fn asking(rate: u32, cap: Option<u64>) -> Call {
        let lookahead = 72e3 / f64::from(rate);
        Call::Setup {
            setup: Setup {
                rate,
                lookahead,
                ..STEREO
            },
            cap,
            house: true,
        }
    }

    /// Everything wrong at once, mended one after the other; what is refused leaves
    /// the weights.
    #[test]
    fn a_house_table_is_refused_between_15_and_16() {
        for length in [STATE, 511] {
            let mut lent = fresh();
            lent.state.resize(length, 1);
            lent.stores.0[WEIGHTS] = vec![f64::NAN.to_bits(); 60];
            let mut refused = |call, due| {
                let before = lent.stores.clone();
                assert_eq!((told(&mut lent, call).0, &lent.stores), (due, &before));
            };
            refused(asking(47_999, Some(4_335)), 15);
            refused(asking(47_999, None), 29);
            refused(asking(48_000, None), 16);
        }
        let mut lent = fresh();
        lent.stores.0[WEIGHTS].fill(f64::NAN.to_bits());
        assert_eq!(told(&mut lent, asking(48_001, None)).0, 29);
        assert_eq!(told(&mut lent, setup(STEREO, None)).0, 17);
        assert_eq!(told(&mut lent, asking(48_000, None)).0, 0);
    }

    /// A setup that asks leaves the weights that the Rust computes; one that does
    /// not leaves those that it is lent.
    #[test]
    fn a_house_table_fills_the_weights() {
        let mut lent = fresh();
        let due = lent.stores.clone();
        lent.stores.0[WEIGHTS][0] ^= 1;
        let other = lent.stores.clone();
        assert_eq!(told(&mut lent, setup(STEREO, None)).0, 0);
        assert_eq!(lent.stores, other);
        lent.stores.0[WEIGHTS].fill(f64::NAN.to_bits());
        assert_eq!(told(&mut lent, asking(48_000, None)).0, 0);
        assert_eq!(lent.stores, due);
        assert_eq!(told(&mut lent, block(0, 50, &[])).0, 0);
    }

    #[test]
    fn pairs_are_told() {
        for (rate, look, has) in [(48_000, 72, 1), (48_000, 73, 0), (44_100, 72, 0)] {
            let (number, answer) = told(&mut fresh(), Call::House { rate, look });
            assert_eq!((number, &answer[..2]), (0, &[has, 0][..]));
        }
    }

    /// In mono, MAX twice drives a sum of the detector to infinity.
    #[test]
    fn an_overflow_in_the_detector_is_a_gain_of_zero() {
        let mut lent = Rust::new(
            &Setup {
                channels: 1,
                ..STEREO
            },
            None,
            Format::F64,
        )
        .expect("good settings")
        .lent();
        let mut samples = vec![0.0; 8];
        samples[..2].fill(f64::MAX);
        let asked = Call::Process {
            position: 0,
            frames: 8,
            events: Vec::new(),
            audio: Audio::of(&samples),
        };
        assert_eq!(told(&mut lent, asked).0, 0);
        let minima = lent.stores.0[2].iter().map(|&w| f64::from_bits(w));
        assert!(minima.take(1).all(|first| first == 0.0));
    }
}
