//! Where the peaks of blocks sat: every rule is met, and a side that has another
//! one is found.

use super::*;
use crate::calls::DETECTOR;
use crate::model::detector::{answer, phase, TAPS};
use crate::model::place::{block, hear, highest, linked, peaks, place, Frame, Heard, Place};
use crate::model::state::State;
use crate::whole::places::Places;

/// Every place, and every tie that decides one. Without damage no sum is a NaN.
#[test]
fn every_place_is_met() {
    for (settings, sessions, least) in [(WHOLE, 300, 5), (DIRECT, 200, 2), (DAMAGE, 1_000, 20)] {
        let settings = Settings {
            sessions,
            ..settings
        };
        let counts = all(&settings, Some(model)).expect("no difference");
        let places = &counts.places;
        assert!(places.empty >= least && places.silent >= least);
        for (row, tie) in Places::names() {
            let arises = settings.mode == Mode::Damage || !tie.contains("NaN");
            let met = places.met(row, tie) >= least;
            assert!(met || !arises, "{row}, {tie}: {settings:?} {places:?}");
        }
    }
}

/// The model, with a rule of ours for where a block's peak sat.
fn misplaced(lent: &mut Lent, call: &mut Call, rule: fn(&[Frame]) -> Place) -> u32 {
    let before = (lent.clone(), call.clone());
    let number = model(lent, call);
    if let (0, Call::Process { audio, .. }) = (number, &before.1) {
        let detector = floats(&before.0.stores.0[DETECTOR]);
        let state = State::read(&before.0.state).expect("judged to be one");
        let frames = block(audio, &detector, state.setup.left_out);
        lent.tell(&rule(&frames).words());
    }
    number
}

/// A place with another frame and channel.
fn renumbered(place: Place, of: impl Fn(usize, usize) -> (usize, usize)) -> Place {
    match place {
        Place::Nowhere => Place::Nowhere,
        Place::Sample { frame, channel } => {
            let (frame, channel) = of(frame, channel);
            Place::Sample { frame, channel }
        }
        Place::Between {
            frame,
            channel,
            phase,
        } => {
            let (frame, channel) = of(frame, channel);
            Place::Between {
                frame,
                channel,
                phase,
            }
        }
    }
}

/// The last of equal frames.
fn last_frame(frames: &[Frame]) -> Place {
    let turned: Vec<Frame> = frames.iter().rev().cloned().collect();
    renumbered(place(&turned), |frame, c| (frames.len() - 1 - frame, c))
}

/// The highest of equal channels.
fn last_channel(frames: &[Frame]) -> Place {
    let turned = |f: &Frame| -> Frame { f.iter().rev().copied().collect() };
    let turned: Vec<Frame> = frames.iter().map(turned).collect();
    let channels = frames.first().map_or(0, Vec::len);
    renumbered(place(&turned), |f, channel| (f, channels - 1 - channel))
}

/// Frames counted in their run of 32.
fn by_run(frames: &[Frame]) -> Place {
    renumbered(place(frames), |frame, c| (frame % 32, c))
}

/// The last of runs that are equally high.
fn last_run(frames: &[Frame]) -> Place {
    let runs: Vec<&[Frame]> = frames.chunks(32).collect();
    let height = |run: &[Frame]| highest(&peaks(run));
    let last = runs.iter().rposition(|run| height(run) == height(frames));
    last.map_or(Place::Nowhere, |run| {
        renumbered(place(runs[run]), |frame, c| (32 * run + frame, c))
    })
}

/// Another phase, by the sums of the channel that is told.
fn by_phase(frames: &[Frame], rule: fn(&Heard) -> Option<usize>) -> Place {
    match place(frames) {
        Place::Between { frame, channel, .. } => Place::Between {
            frame,
            channel,
            phase: rule(&frames[frame][channel]).expect("a phase"),
        },
        other => other,
    }
}

/// The last of equal phases.
fn last_phase(frames: &[Frame]) -> Place {
    by_phase(frames, |h| {
        let peak = answer(&h.sums);
        h.sums.iter().rposition(|sum| sum.abs() == peak)
    })
}

/// A NaN is the largest.
fn nan_phase(frames: &[Frame]) -> Place {
    by_phase(frames, |h| {
        let nan = h.sums.iter().position(|sum| sum.is_nan());
        nan.or_else(|| phase(&h.sums))
    })
}

/// Of equal phases the first that is above 0.0.
fn positive_phase(frames: &[Frame]) -> Place {
    by_phase(frames, |h| {
        let peak = answer(&h.sums);
        let positive = h.sums.iter().position(|sum| *sum == peak);
        positive.or_else(|| phase(&h.sums))
    })
}

/// The detector of a channel.
fn detector(frames: &[Frame], frame: usize, channel: usize) -> Place {
    Place::Between {
        frame,
        channel,
        phase: phase(&frames[frame][channel].sums).expect("a peak"),
    }
}

/// Of all frames that are as high, one with a sample first.
fn any_sample(frames: &[Frame]) -> Place {
    let Place::Between { frame, .. } = place(frames) else {
        return place(frames);
    };
    let peak = linked(&frames[frame]);
    let on = |f: &Frame| f.iter().position(|h| h.has_sample(peak));
    let mut samples = frames.iter().enumerate();
    let found = samples.find_map(|(frame, f)| on(f).map(|channel| (frame, channel)));
    found.map_or(place(frames), |(frame, channel)| Place::Sample {
        frame,
        channel,
    })
}

/// The lowest channel that is as high by its sample or its detector.
fn any_channel(frames: &[Frame]) -> Place {
    let Place::Sample { frame, .. } = place(frames) else {
        return place(frames);
    };
    let (heard, peak) = (&frames[frame], linked(&frames[frame]));
    let high = |h: &Heard| h.has_sample(peak) || h.has_answer(peak);
    let channel = heard.iter().position(high).expect("one is as high");
    if heard[channel].has_sample(peak) {
        Place::Sample { frame, channel }
    } else {
        detector(frames, frame, channel)
    }
}

/// A detector comes before a sample of its height.
fn detector_first(frames: &[Frame]) -> Place {
    let Place::Sample { frame, .. } = place(frames) else {
        return place(frames);
    };
    let peak = linked(&frames[frame]);
    let as_high = frames[frame].iter().position(|h| h.has_answer(peak));
    as_high.map_or(place(frames), |channel| detector(frames, frame, channel))
}

/// Silence has its peak at the start.
fn never_nowhere(frames: &[Frame]) -> Place {
    let (frame, channel) = (0, 0);
    match place(frames) {
        Place::Nowhere => Place::Sample { frame, channel },
        found => found,
    }
}

/// What was heard before a block is forgotten.
fn unremembered(frames: &[Frame]) -> Place {
    let mut detector = vec![0.0; TAPS * frames.first().map_or(0, Vec::len)];
    let samples = |f: &Frame| -> Vec<f64> { f.iter().map(|h| h.sample).collect() };
    let heard = |f: &Frame| {
        let mut heard = hear(&samples(f), &mut detector, 0);
        let pairs = heard.iter_mut().zip(f);
        pairs.for_each(|(heard, told)| heard.counts = told.counts);
        heard
    };
    place(&frames.iter().map(heard).collect::<Vec<Frame>>())
}

/// A drain tells more than its two words.
fn placed_drain(lent: &mut Lent, call: &mut Call) -> u32 {
    let number = model(lent, call);
    if number == 0 && matches!(call, Call::Flush { .. }) {
        lent.answer.iter_mut().skip(2).for_each(|word| *word = 1);
    }
    number
}

#[test]
fn wrong_places_are_found() {
    let everywhere = &[WHOLE, DIRECT, DAMAGE][..];
    let damage = &[DAMAGE][..];
    let sides: [(Side, &[Settings]); 14] = [
        (|l, c| misplaced(l, c, |_| Place::Nowhere), everywhere),
        (|l, c| misplaced(l, c, last_frame), everywhere),
        (|l, c| misplaced(l, c, last_channel), everywhere),
        (|l, c| misplaced(l, c, by_run), everywhere),
        (|l, c| misplaced(l, c, last_run), everywhere),
        (|l, c| misplaced(l, c, last_phase), everywhere),
        (|l, c| misplaced(l, c, nan_phase), damage),
        (|l, c| misplaced(l, c, positive_phase), damage),
        (|l, c| misplaced(l, c, any_sample), everywhere),
        (|l, c| misplaced(l, c, any_channel), everywhere),
        (|l, c| misplaced(l, c, detector_first), everywhere),
        (|l, c| misplaced(l, c, never_nowhere), everywhere),
        (|l, c| misplaced(l, c, unremembered), everywhere),
        (placed_drain, everywhere),
    ];
    for (at, (side, modes)) in sides.into_iter().enumerate() {
        for settings in modes {
            let settings = Settings {
                sessions: 1_000,
                ..*settings
            };
            let found = all(&settings, Some(side)).expect_err("a difference");
            let told = found.1.report.contains("answer[");
            assert!(told, "side {at}, {settings:?}: {found:?}");
        }
    }
}
