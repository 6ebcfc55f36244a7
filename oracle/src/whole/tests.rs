//! The comparison itself: its sessions are what they should be, the model agrees
//! with the Rust, and a side that is wrong is found.

mod houses;
mod linking;
mod places;

use super::plan::Part;
use super::*;
use crate::audio::{Audio, Crossing as _, Format};
use crate::calls::{floats, Call, Lent, ANSWER, WEIGHTS};
use crate::layout::state as at;
use crate::model::calls::call as model;
use crate::model::setup::look;
use crate::model::weights::{ranged, summed};

const WHOLE: Settings = Settings {
    mode: Mode::Whole,
    types: Types::Any,
    sessions: 90,
    seed: 1,
};

const DIRECT: Settings = Settings {
    mode: Mode::Direct,
    types: Types::Any,
    sessions: 60,
    seed: 1,
};

const DAMAGE: Settings = Settings {
    mode: Mode::Damage,
    types: Types::Any,
    sessions: 80,
    seed: 1,
};

/// A mode's calls answer the numbers of each row so often at least.
fn common(settings: &Settings, rows: &[(u64, &[usize])]) {
    let counts = all(settings, Some(model)).expect("no difference");
    assert_eq!(counts.sessions, settings.sessions);
    for &(least, numbers) in rows {
        let met = |number: usize| counts.numbers[number] >= least;
        assert!(numbers.iter().all(|&n| met(n)), "{least}: {counts:?}");
    }
}

#[test]
fn the_model_is_the_rust_and_every_answer_is_met() {
    let often = [0, 15, 16, 18, 20, 21, 23, 24, 29];
    let seldom = [5, 7, 9, 11, 12, 22];
    common(&WHOLE, &[(20, &often), (2, &seldom)]);
}

#[test]
fn damage_meets_every_answer_that_it_aims_at() {
    common(&DAMAGE, &[(500, &[0, 18, 19]), (30, &[17, 22, 29])]);
}

#[test]
fn sessions_have_every_size() {
    for settings in [WHOLE, DIRECT] {
        every_size(&settings);
    }
}

fn every_size(settings: &Settings) {
    let sessions: Vec<Session> = (0..400).map(|number| drawn(settings, number)).collect();
    let has = |test: &dyn Fn(&Session) -> bool| assert!(sessions.iter().any(test));
    for channels in 1..=8 {
        has(&|s| s.setup.channels == channels);
    }
    let frames = |s: &Session| look(s.setup.lookahead, s.setup.rate);
    has(&|s| frames(s) == 11);
    has(&|s| frames(s) == 4_096);
    for release in [0.0f64, -0.0, 10_000.0] {
        has(&|s| s.setup.release.to_bits() == release.to_bits());
    }
    let blocks = |s: &Session, test: &dyn Fn(u64, u64) -> bool| {
        s.turns.iter().any(|turn| match &turn.part {
            Part::Block(b) => turn.commits() && test(b.position, b.frames),
            _ => false,
        })
    };
    has(&|s| blocks(s, &|_, frames| frames == 65_536));
    has(&|s| blocks(s, &|_, frames| frames == 0));
    has(&|s| blocks(s, &|position, frames| position + frames == 1 << 62));
}

/// The table is the model's, the frames are the Rust's.
#[test]
fn sessions_without_the_model_are_long() {
    let settings = Settings {
        sessions: 12,
        ..DIRECT
    };
    let counts = all(&settings, Some(model)).expect("no difference");
    assert!(counts.frames.iter().all(|&n| n > 10_000), "{counts:?}");
    assert!(counts.numbers[18] > 10, "{counts:?}");
}

/// The gains that sessions end with: none is rare, so that outputs are heard
/// both as they came and turned down.
#[test]
fn gains_of_every_size_are_met() {
    let gain = |number| {
        let session = drawn(&DAMAGE, number);
        let mut lent = Rust::new(&session.setup, None, Format::F64)
            .expect("good")
            .lent();
        for turn in session.turns.iter().filter(|turn| turn.commits()) {
            model(&mut lent, &mut turn.part.call(&session));
        }
        f64::read(&lent.state[8 * at::GAIN..])
    };
    let gains: Vec<f64> = (0..100).map(gain).collect();
    let count = |test: &dyn Fn(f64) -> bool| gains.iter().filter(|g| test(**g)).count();
    assert!(count(&|g| g == 1.0) > 5, "{gains:?}");
    assert!(count(&|g| g > 0.001 && g < 1.0) > 5, "{gains:?}");
    assert!(count(&|g| g <= 0.001) > 5, "{gains:?}");
}

/// Most damage that is accepted can be forged into the Rust, which then holds
/// the model to it.
#[test]
fn the_rust_takes_most_damage() {
    let (mut accepted, mut taken) = (0, 0);
    for number in 0..20 {
        let session = drawn(&DAMAGE, number);
        let fresh = Rust::new(&session.setup, None, Format::F64)
            .expect("good")
            .lent();
        for turn in session.turns.iter().filter(|turn| !turn.commits()) {
            let (mut lent, mut call) = (fresh.clone(), turn.part.call(&session));
            let faults = turn.faults.iter();
            faults.for_each(|fault| fault.apply(&mut lent, &mut call));
            if !matches!(call, Call::Setup { .. }) && model(&mut lent.clone(), &mut call) == 0 {
                accepted += 1;
                taken += usize::from(Rust::forged(&lent, Format::F32).is_some());
            }
        }
    }
    assert!(
        accepted > 300 && 5 * taken > 4 * accepted,
        "{taken} of {accepted}"
    );
}

#[test]
fn a_run_depends_on_its_seed_alone() {
    let text = |seed| {
        let settings = Settings {
            sessions: 6,
            seed,
            ..DAMAGE
        };
        run(&settings, Some(model))
    };
    let (passed, lines) = text(7);
    assert!(passed && lines.contains("0 differences, seed 7"));
    assert_eq!(text(7), (passed, lines.clone()));
    assert_ne!(text(8).1.replace("seed 8", "seed 7"), lines);
}

/// A bit of an output that leaves wrong.
fn wrong_output(lent: &mut Lent, call: &mut Call) -> u32 {
    let number = model(lent, call);
    if let Call::Process { audio, frames, .. } = call {
        if number == 0 && *frames > 40 {
            let place = audio.format.size() * 40;
            audio.bytes[place] ^= 1;
        }
    }
    number
}

/// A refused block whose audio is touched, or whose row is.
fn touched(lent: &mut Lent, call: &mut Call) -> u32 {
    let number = model(lent, call);
    if number == 21 {
        lent.stores.0[4][0] ^= 1;
    }
    number
}

/// The position is judged first.
fn other_order(lent: &mut Lent, call: &mut Call) -> u32 {
    match call {
        Call::Process { position, .. } if *position > 1 << 62 => {
            lent.tell(&[]);
            22
        }
        _ => model(lent, call),
    }
}

/// A refusal that tells nothing.
fn untold(lent: &mut Lent, call: &mut Call) -> u32 {
    let before = lent.answer.clone();
    let number = model(lent, call);
    if number == 18 {
        lent.answer = before;
    }
    number
}

/// An answer of another length than eight is refused.
fn exact(lent: &mut Lent, call: &mut Call) -> u32 {
    if lent.answer.len() == ANSWER || !matches!(call, Call::Set { .. }) {
        return model(lent, call);
    }
    16
}

/// A short answer is not written.
fn all_or_none(lent: &mut Lent, call: &mut Call) -> u32 {
    let before = lent.answer.clone();
    let number = model(lent, call);
    if before.len() < ANSWER {
        lent.answer = before;
    }
    number
}

/// A long answer is zeroed to its end.
fn zeroed(lent: &mut Lent, call: &mut Call) -> u32 {
    let number = model(lent, call);
    lent.answer.iter_mut().skip(ANSWER).for_each(|w| *w = 0);
    number
}

/// A reset that forgets the kept target.
fn forgetful(lent: &mut Lent, call: &mut Call) -> u32 {
    let target = 8 * at::TARGET..8 * (at::TARGET + 1);
    let kept = lent.state.get(target.clone()).map(<[u8]>::to_vec);
    let number = model(lent, call);
    if number == 0 && matches!(call, Call::Reset) {
        lent.state[target].copy_from_slice(&kept.unwrap_or_default());
    }
    number
}

#[test]
fn wrong_sides_are_found_and_told_in_short() {
    for (side, said) in [
        (wrong_output as Side, "audio, sample 40"),
        (touched, "row[0]"),
        (other_order, "number: due"),
        (untold, "answer[0]"),
        (exact, "seen 16"),
        (all_or_none, "answer[0]"),
        (zeroed, "answer[8]"),
        (forgetful, "state[17]"),
    ] {
        for settings in [WHOLE, DIRECT] {
            let (passed, text) = run(&settings, Some(side));
            assert!(!passed);
            assert!(text.contains(said), "{text}");
            assert!(text.lines().count() <= 6, "{text}");
        }
    }
}

/// The model at f64, with an f32's outputs rounded by a rule of ours.
fn rounded(lent: &mut Lent, call: &mut Call, rule: fn(f64) -> f32) -> u32 {
    let Some(audio) = call.audio_mut().filter(|a| a.format == Format::F32) else {
        return model(lent, call);
    };
    let mut narrow = audio.clone();
    if narrow.bytes.len() % 4 == 0 {
        let wide: Vec<f64> = (0..narrow.len()).map(|at| narrow.sample(at)).collect();
        *audio = Audio::of(&wide);
    }
    let number = model(lent, call);
    let audio = call.audio_mut().expect("as before");
    if audio.format == Format::F64 {
        for at in 0..narrow.len() {
            // What was not written stays, a NaN's payload too.
            if audio.bits(at) != narrow.sample(at).to_bits() {
                narrow.put(at, f64::from(rule(audio.sample(at))));
            }
        }
        *audio = narrow;
    }
    number
}

fn nearest(lent: &mut Lent, call: &mut Call) -> u32 {
    rounded(lent, call, |x| x as f32)
}

/// Digits are cut off.
fn cut_off(lent: &mut Lent, call: &mut Call) -> u32 {
    rounded(lent, call, |x| {
        let near = x as f32;
        let far = f64::from(near).abs() > x.abs();
        f32::from_bits(near.to_bits() - u32::from(far))
    })
}

/// The middle of two goes away from zero.
fn middle_up(lent: &mut Lent, call: &mut Call) -> u32 {
    rounded(lent, call, |x| f64::from_bits(x.to_bits() | 1) as f32)
}

/// No output is infinite.
fn saturated(lent: &mut Lent, call: &mut Call) -> u32 {
    rounded(lent, call, |x| (x as f32).clamp(f32::MIN, f32::MAX))
}

/// Both types lie on the same places.
fn as_f64(lent: &mut Lent, call: &mut Call) -> u32 {
    let Some(format) = call.format() else {
        return model(lent, call);
    };
    let takes = |call: &mut Call, format| {
        call.audio_mut().expect("as before").format = format;
    };
    takes(call, Format::F64);
    let number = model(lent, call);
    takes(call, format);
    number
}

/// Middles are met by gains of few digits where all is f32, by samples of f64
/// where types are mixed; infinities by large samples that were put in from
/// outside.
#[test]
fn wrong_roundings_are_found() {
    let of = |mode, types| Settings {
        mode,
        types,
        sessions: 1_000,
        seed: 3,
    };
    let (narrow, mixed) = (of(Mode::Direct, Types::F32), of(Mode::Direct, Types::Mixed));
    let damage = of(Mode::Damage, Types::F32);
    for (settings, side) in [
        (narrow, cut_off as Side),
        (narrow, middle_up),
        (mixed, middle_up),
        (damage, saturated),
        (narrow, as_f64),
    ] {
        let (passed, text) = run(&settings, Some(side));
        assert!(!passed, "{settings:?}");
        assert!(
            text.contains("audio, sample") || text.contains("due 0, seen 20"),
            "{text}"
        );
    }
}

#[test]
fn an_f32_session_is_an_f64_one_rounded() {
    for types in [Types::F32, Types::Mixed] {
        let settings = Settings {
            types,
            sessions: 15,
            ..WHOLE
        };
        let (passed, text) = run(&settings, Some(nearest));
        assert!(passed, "{text}");
    }
}

/// A state whose drained count is not judged.
fn unjudged(lent: &mut Lent, call: &mut Call) -> u32 {
    if matches!(call, Call::Setup { .. }) {
        return model(lent, call);
    }
    let before = lent.state.clone();
    let drained = 8 * at::DRAINED..8 * (at::DRAINED + 1);
    if let Some(word) = lent.state.get_mut(drained) {
        word.fill(0);
    }
    let number = model(lent, call);
    if number != 0 {
        lent.state = before;
    }
    number
}

#[test]
fn damage_finds_what_sessions_do_not() {
    let (passed, text) = run(&DAMAGE, Some(unjudged));
    assert!(!passed && text.contains("at: 18"), "{text}");
}

/// Weights of which only range and sum are judged: those that pass are set up as
/// others, which pass by every clause.
fn lopsided(lent: &mut Lent, call: &mut Call) -> u32 {
    let kept = lent.stores.0[WEIGHTS].clone();
    let table = floats(&kept);
    let asks = matches!(call, Call::Setup { house: true, .. });
    if matches!(call, Call::Setup { .. }) && !asks && ranged(&table) && summed(&table) {
        let last = table.len() - 1;
        let spike = |i: usize| match i.abs_diff(last - i) {
            0 => 1.0f64.to_bits(),
            1 => 0.5f64.to_bits(),
            _ => 1 + i.min(last - i) as u64,
        };
        lent.stores.0[WEIGHTS] = (0..=last).map(spike).collect();
    }
    let number = model(lent, call);
    if !asks {
        lent.stores.0[WEIGHTS] = kept;
    }
    number
}

#[test]
fn damage_finds_lopsided_weights() {
    let (passed, text) = run(&DAMAGE, Some(lopsided));
    assert!(!passed && text.contains("due 17, seen 0"), "{text}");
}
