//! Channels that are left out: every choice is drawn and played, and a side that
//! goes by another one, or does something else with these channels, is found.

use std::collections::BTreeSet;
use std::ops::Range;

use super::*;
use crate::calls::{words, DETECTOR, STATE};
use crate::dsp::sanitize::flush_denormal;
use crate::model::detector::TAPS;
use crate::model::place::{block, place, Frame};
use crate::model::setup::{counts, kept, Setup, CHANNELS};
use crate::model::state::State;

/// Of 512 sessions in a row each choice is the first of one at least; about half of
/// the sessions leave nothing out.
#[test]
fn every_choice_is_drawn() {
    for (settings, first) in [(WHOLE, 0), (DIRECT, 1_001), (DAMAGE, 64)] {
        let sessions = (first..first + 512).map(|number| drawn(&settings, number).setup);
        let setups: Vec<_> = sessions.collect();
        let choices: BTreeSet<u32> = setups.iter().map(|s| kept(s.left_out)).collect();
        assert_eq!(choices.len(), 256);
        let all = |s: &&Setup| (0..s.channels).all(|channel| counts(s.left_out, channel));
        let none = |s: &&Setup| !(0..s.channels).any(|channel| counts(s.left_out, channel));
        let meaningless = |s: &&Setup| s.left_out > 255;
        let [all, none] = [
            setups.iter().filter(all).count(),
            setups.iter().filter(none).count(),
        ];
        assert!((250..340).contains(&all), "{settings:?}: {all}");
        assert!(none > 10, "{settings:?}: {none}");
        assert!(setups.iter().filter(meaningless).count() > 80);
    }
}

#[test]
fn every_choice_is_played() {
    for (settings, sessions, least) in [(WHOLE, 512, 240), (DIRECT, 120, 55), (DAMAGE, 512, 250)] {
        let settings = Settings {
            sessions,
            ..settings
        };
        let counts = all(&settings, Some(model)).expect("no difference");
        let (choices, frames) = (&counts.choices, counts.frames.iter().sum::<u64>());
        // A session here and there has no frames.
        let [met, owned] = choices.met();
        assert!(
            met >= least && 3 * owned > 2 * least,
            "{settings:?}: {met}, {owned}"
        );
        assert!(3 * choices.sessions > sessions, "{settings:?}: {choices:?}");
        assert!(4 * choices.frames > frames, "{settings:?}: {choices:?}");
        assert!(400 * choices.none > frames, "{settings:?}: {choices:?}");
        // Where one is left out it is often the one that would have been heard.
        assert!(3 * choices.louder > choices.frames, "{settings:?}");
    }
}

/// The bytes of a state that say who is left out.
fn choice(lent: &mut Lent) -> &mut [u8] {
    &mut lent.state[8 * at::LEFT_OUT..8 * at::USED]
}

/// The model, by a state that a rule of ours has changed first; what says who counts
/// is as it was afterwards, and the answer is the model's own.
fn misread(lent: &mut Lent, call: &mut Call, rule: impl Fn(&Call, &mut State)) -> u32 {
    let Some(mut state) = State::read(&lent.state) else {
        return model(lent, call);
    };
    if matches!(call, Call::Setup { .. }) {
        return model(lent, call);
    }
    let mut right = (lent.clone(), call.clone());
    model(&mut right.0, &mut right.1);
    rule(call, &mut state);
    let before = choice(lent).to_vec();
    lent.state = state.bytes();
    let number = model(lent, call);
    choice(lent).copy_from_slice(&before);
    lent.answer = right.0.answer;
    number
}

/// Another choice in place of the state's, by the channels and its bits.
fn chosen(lent: &mut Lent, call: &mut Call, rule: fn(usize, u32) -> u32) -> u32 {
    misread(lent, call, |_, state| {
        // Damage may tell any number of channels.
        let channels = state.setup.channels.clamp(1, CHANNELS);
        state.setup.left_out = kept(rule(channels, state.setup.left_out));
    })
}

/// The bits of the channels that there are.
fn own(channels: usize) -> u32 {
    (1 << channels) - 1
}

/// In drains all count.
fn undrained(lent: &mut Lent, call: &mut Call) -> u32 {
    misread(lent, call, |call, state| {
        if matches!(call, Call::Flush { .. }) {
            state.setup.left_out = 0;
        }
    })
}

#[test]
fn other_choices_are_found() {
    let sides: [Side; 9] = [
        // From the highest channel down.
        |l, c| {
            chosen(l, c, |channels, bits| {
                bits.reverse_bits() >> (32 - channels)
            })
        },
        |l, c| chosen(l, c, |_, bits| bits.reverse_bits() >> (32 - CHANNELS)),
        // All count; those count that do not; the next ones do not.
        |l, c| chosen(l, c, |_, _| 0),
        |l, c| chosen(l, c, |_, bits| !bits),
        |l, c| chosen(l, c, |_, bits| bits << 1),
        // One alone is left out, or never the last that counts.
        |l, c| chosen(l, c, |_, bits| bits & bits.wrapping_neg()),
        |l, c| {
            chosen(l, c, |channels, bits| match bits & own(channels) {
                all if all == own(channels) => 0,
                _ => bits,
            })
        },
        // Bits past the channels go round.
        |l, c| chosen(l, c, |channels, bits| bits | bits >> channels),
        undrained,
    ];
    for (at, side) in sides.into_iter().enumerate() {
        for settings in [WHOLE, DIRECT, DAMAGE] {
            let settings = Settings {
                sessions: 400,
                ..settings
            };
            let found = all(&settings, Some(side)).expect_err("a difference");
            let told = !found.1.report.contains("answer[");
            assert!(told, "side {at}, {settings:?}: {found:?}");
        }
    }
}

/// A finished block or drain: the state before it, its frames, and the channels
/// that do not count.
struct Played {
    state: State,
    frames: usize,
    channels: Vec<usize>,
}

impl Played {
    fn of(lent: &Lent, call: &Call, number: u32) -> Option<Self> {
        let (Call::Process { frames, .. } | Call::Flush { frames, .. }) = call else {
            return None;
        };
        let state = State::read(&lent.state).filter(|_| number == 0)?;
        let left_out = |channel: &usize| !counts(state.setup.left_out, *channel);
        Some(Self {
            state,
            frames: *frames as usize,
            channels: (0..state.setup.channels).filter(left_out).collect(),
        })
    }

    /// The frames that were given out.
    fn written(&self, call: &Call) -> usize {
        let left = (self.state.look - self.state.drained) as usize;
        match call {
            Call::Flush { .. } => self.frames.min(left),
            _ => self.frames,
        }
    }
}

/// The model, and then a rule of ours about the channels left out, by what was
/// lent and asked before.
fn treated(
    lent: &mut Lent,
    call: &mut Call,
    rule: fn(&Played, (&Lent, &Call), &mut Lent, &mut Call),
) -> u32 {
    let before = (lent.clone(), call.clone());
    let number = model(lent, call);
    if let Some(played) = Played::of(&before.0, &before.1, number) {
        rule(&played, (&before.0, &before.1), lent, call);
    }
    number
}

/// Their detectors do not hear them.
fn unheard(lent: &mut Lent, call: &mut Call) -> u32 {
    treated(lent, call, |played, (before, _), lent, _| {
        for channel in &played.channels {
            let twelve = TAPS * channel..TAPS * (channel + 1);
            let held = &before.stores.0[DETECTOR][twelve.clone()];
            lent.stores.0[DETECTOR][twelve].copy_from_slice(held);
        }
    })
}

/// Their detectors stand still in drains.
fn unheard_in_drains(lent: &mut Lent, call: &mut Call) -> u32 {
    match call {
        Call::Flush { .. } => unheard(lent, call),
        _ => model(lent, call),
    }
}

/// They are delayed, but not scaled.
fn unscaled(lent: &mut Lent, call: &mut Call) -> u32 {
    treated(lent, call, |played, (before, asked), _, call| {
        let (look, at) = (played.state.look as usize, played.state.delay_pos as usize);
        let delay = floats(&before.stores.0[0]);
        let samples = asked.audio().expect("frames");
        let silent = matches!(call, Call::Flush { .. });
        for channel in &played.channels {
            for i in 0..played.written(asked) {
                let place = channel * played.frames + i;
                let leaves = match i.checked_sub(look) {
                    None => delay[channel * look + (at + i) % look],
                    Some(_) if silent => 0.0,
                    Some(_) => samples.sample(place - look),
                };
                let audio = call.audio_mut().expect("frames");
                audio.put(place, flush_denormal(leaves));
            }
        }
    })
}

/// They leave a frame too early.
fn early(lent: &mut Lent, call: &mut Call) -> u32 {
    treated(lent, call, |played, (_, asked), _, call| {
        let written = played.written(asked);
        for channel in &played.channels {
            let first = channel * played.frames;
            let audio = call.audio_mut().expect("frames");
            let from = audio.clone();
            (1..written).for_each(|i| audio.copy(first + i - 1, &from, first + i));
        }
    })
}

/// They are silent.
fn silenced(lent: &mut Lent, call: &mut Call) -> u32 {
    treated(lent, call, |played, (_, asked), _, call| {
        let audio = call.audio_mut().expect("frames");
        for channel in &played.channels {
            let places = channel * played.frames..;
            let places = places.take(played.written(asked));
            places.for_each(|place| audio.put(place, 0.0));
        }
    })
}

/// Their samples are not stored for later.
fn unstored(lent: &mut Lent, call: &mut Call) -> u32 {
    treated(lent, call, |played, (before, _), lent, _| {
        let look = played.state.look as usize;
        for channel in &played.channels {
            let line = look * channel..look * (channel + 1);
            let held = &before.stores.0[0][line.clone()];
            lent.stores.0[0][line].copy_from_slice(held);
        }
    })
}

/// The model, but that a block tells where the peak of other frames sat.
fn told_of(lent: &mut Lent, call: &mut Call, rule: fn(&mut Frame)) -> u32 {
    let before = (lent.clone(), call.clone());
    let number = model(lent, call);
    if let (0, Call::Process { audio, .. }) = (number, &before.1) {
        let state = State::read(&before.0.state).expect("judged to be one");
        let detector = floats(&before.0.stores.0[DETECTOR]);
        let mut frames = block(audio, &detector, state.setup.left_out);
        frames.iter_mut().for_each(rule);
        lent.tell(&place(&frames).words());
    }
    number
}

/// All count there.
fn told_of_all(lent: &mut Lent, call: &mut Call) -> u32 {
    told_of(lent, call, |frame| {
        frame.iter_mut().for_each(|heard| heard.counts = true);
    })
}

/// All detectors count there, and the samples of those that count.
fn told_of_all_detectors(lent: &mut Lent, call: &mut Call) -> u32 {
    told_of(lent, call, |frame| {
        for heard in frame.iter_mut().filter(|heard| !heard.counts) {
            heard.counts = true;
            heard.sample = 0.0;
        }
    })
}

#[test]
fn other_treatment_of_channels_left_out_is_found() {
    for (side, said) in [
        (unheard as Side, "detector["),
        (unheard_in_drains, "detector["),
        (unscaled, "audio, sample"),
        (early, "audio, sample"),
        (silenced, "audio, sample"),
        (unstored, "delay["),
        (told_of_all, "answer["),
        (told_of_all_detectors, "answer["),
    ] {
        for settings in [WHOLE, DIRECT, DAMAGE] {
            let settings = Settings {
                sessions: 400,
                ..settings
            };
            let found = all(&settings, Some(side)).expect_err("a difference");
            let told = found.1.report.contains(said);
            assert!(told, "{said}, {settings:?}: {found:?}");
        }
    }
}

/// The model, and then a word of ours where a call wrote who is left out.
fn rewritten(lent: &mut Lent, call: &mut Call, rule: fn(&Call, u32, u64) -> u64) -> u32 {
    let number = model(lent, call);
    if lent.state.len() == STATE {
        let word = rule(call, number, words(choice(lent))[0]);
        choice(lent).copy_from_slice(&word.to_le_bytes());
    }
    number
}

/// A reset brings the default back.
fn resetting(lent: &mut Lent, call: &mut Call) -> u32 {
    rewritten(lent, call, |call, number, word| match call {
        Call::Reset if number == 0 => 0,
        _ => word,
    })
}

/// Bits past the channels are not kept.
fn forgetting(lent: &mut Lent, call: &mut Call) -> u32 {
    rewritten(lent, call, |call, number, word| match call {
        Call::Setup { setup, .. } if number == 0 => word & u64::from(own(setup.channels)),
        _ => word,
    })
}

/// A refused setup leaves that none counts.
fn refusing(lent: &mut Lent, call: &mut Call) -> u32 {
    rewritten(lent, call, |call, number, word| match call {
        Call::Setup { .. } if number != 0 => 255,
        _ => word,
    })
}

/// A setup with bits that mean nothing leaves that all count.
fn strict(lent: &mut Lent, call: &mut Call) -> u32 {
    rewritten(lent, call, |call, number, word| match call {
        Call::Setup { setup, .. } if number == 0 && setup.left_out > 255 => 0,
        _ => word,
    })
}

#[test]
fn other_words_are_found() {
    for side in [resetting as Side, forgetting, refusing, strict] {
        for settings in [WHOLE, DIRECT, DAMAGE] {
            let (_, split) = all(&settings, Some(side)).expect_err("a difference");
            let told = split.report.contains("state[34]");
            assert!(told, "{settings:?}: {split:?}");
        }
    }
}

/// The model, by words that a rule of ours has mended first; they are as they were
/// afterwards.
fn mended(lent: &mut Lent, call: &mut Call, places: Range<usize>, mend: fn(u64) -> u64) -> u32 {
    if matches!(call, Call::Setup { .. }) || lent.state.len() != STATE {
        return model(lent, call);
    }
    let bytes = 8 * places.start..8 * places.end;
    let before = lent.state[bytes.clone()].to_vec();
    let new = words(&before).into_iter().map(mend);
    let new: Vec<u8> = new.flat_map(u64::to_le_bytes).collect();
    lent.state[bytes.clone()].copy_from_slice(&new);
    let number = model(lent, call);
    lent.state[bytes].copy_from_slice(&before);
    number
}

#[test]
fn words_that_no_state_has_are_found() {
    const LEFT_OUT: Range<usize> = at::LEFT_OUT..at::USED;
    let sides: [Side; 3] = [
        // The last byte says it, or there are at most so many.
        |l, c| mended(l, c, LEFT_OUT, |word| word & 255),
        |l, c| mended(l, c, LEFT_OUT, |word| word.min(255)),
        // Nobody looks behind it.
        |l, c| mended(l, c, at::USED..at::WORDS, |_| 0),
    ];
    for (at, side) in sides.into_iter().enumerate() {
        for settings in [WHOLE, DIRECT, DAMAGE] {
            let settings = Settings {
                sessions: 600,
                ..settings
            };
            let found = all(&settings, Some(side)).expect_err("a difference");
            let told = found.1.report.contains("due 18, seen");
            assert!(told, "side {at}, {settings:?}: {found:?}");
        }
    }
}
