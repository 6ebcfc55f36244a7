//! A child of the Rust's own module `limiter`: it calls the private `step_env`
//! and reads the fields that a call leaves.

use super::{Kernel, Limiter, LimiterSettings, ProcessSpec};
use crate::calls::{floats, Stores};
use crate::dsp::oversample::inside as detector;
use crate::dsp::sanitize::finite_or_zero;
#[cfg(any(test, feature = "probe"))]
use crate::model::keeper::Keeping;
use crate::model::setup::Setup;
use crate::model::state::State;

/// What one gain step leaves, in document 01's words.
#[derive(Clone, Copy, Debug, PartialEq)]
pub(crate) struct Stepped {
    /// This step's frame, counted from 0.
    pub frame: u64,
    /// The front of the ring.
    pub floor: f64,
    /// Entries that this step dropped from the ring, at both ends.
    pub dropped: usize,
    /// Entries in the ring.
    pub kept: usize,
    /// Floors in the attack row other than 1.
    pub tally: usize,
    /// The weighted mean of the attack row.
    pub mean: f64,
    /// The applied gain.
    pub gain: f64,
}

/// What `prepare` derives from the settings, the look apart.
pub(crate) struct Derived {
    /// The release coefficient.
    pub release_coeff: f64,
    /// The default threshold's target.
    pub target: f64,
}

/// Release coefficient and target that `prepare` derives, or nothing where it
/// refuses. No channel and hardly more than 11 frames keep it quick.
pub(crate) fn derived(
    threshold_db: f64,
    margin_db: f64,
    release_ms: f64,
    rate: u32,
) -> Option<Derived> {
    let settings = LimiterSettings::new()
        .threshold_db(threshold_db)
        .true_peak_margin_db(margin_db)
        .lookahead_ms(11_250.0 / f64::from(rate))
        .release_ms(release_ms);
    let mut limiter = Limiter::with_settings(settings);
    let spec = ProcessSpec {
        sample_rate: rate,
        channels: 0,
        max_block: 1,
        max_memory: None,
    };
    <Limiter as Kernel<f64>>::prepare(&mut limiter, spec).ok()?;
    Some(Derived {
        release_coeff: limiter.release_coeff,
        target: limiter.flush_thresh,
    })
}

/// The look that `prepare` derives, or nothing where it refuses before: a look
/// that is refused stays in its field, and a cap of no bytes refuses the rest.
pub(crate) fn look(lookahead_ms: f64, rate: u32) -> Option<usize> {
    let settings = LimiterSettings::new().lookahead_ms(lookahead_ms);
    let mut limiter = Limiter::with_settings(settings);
    let spec = ProcessSpec {
        sample_rate: rate,
        channels: 1,
        max_block: 1,
        max_memory: Some(0),
    };
    let refused = <Limiter as Kernel<f64>>::prepare(&mut limiter, spec);
    assert!(refused.is_err(), "no limiter fits no bytes");
    (limiter.look > 0).then_some(limiter.look)
}

/// A mono limiter of exactly this look, or the Rust's refusal.
pub(crate) fn prepared(look: usize, release_ms: f64) -> Result<Limiter, String> {
    let settings = LimiterSettings::new()
        .lookahead_ms(look as f64 / 48.0)
        .release_ms(release_ms);
    let limiter = mono(settings, 48_000)?;
    assert_eq!(limiter.look, look, "the look is not the one asked for");
    Ok(limiter)
}

fn mono(settings: LimiterSettings, rate: u32) -> Result<Limiter, String> {
    let mut limiter = Limiter::with_settings(settings);
    let spec = ProcessSpec {
        sample_rate: rate,
        channels: 1,
        max_block: 1,
        max_memory: None,
    };
    <Limiter as Kernel<f64>>::prepare(&mut limiter, spec).map_err(|e| e.to_string())?;
    Ok(limiter)
}

/// Look and weights that `prepare` derives for a lookahead at a rate; all else is
/// as the Rust has it where nothing is asked.
pub(crate) fn attack(lookahead_ms: f64, rate: u32) -> Result<(usize, Vec<f64>), String> {
    let settings = LimiterSettings::new().lookahead_ms(lookahead_ms);
    let limiter = mono(settings, rate)?;
    Ok((limiter.look, limiter.hann))
}

/// The weights that the Rust computed.
pub(crate) fn weights(limiter: &Limiter) -> &[f64] {
    &limiter.hann
}

/// One call of the Rust's own `step_env`.
pub(crate) fn step(limiter: &mut Limiter, required: f64) -> Stepped {
    let (frame, before, old_gain) = (limiter.frame, limiter.wedge_len, limiter.env);
    let gain = limiter.step_env(required);
    let mean = mean(limiter);
    assert_eq!(
        gain.to_bits(),
        grown(old_gain, mean, limiter.release_coeff).to_bits(),
        "the mean read here is not the one that the step used"
    );
    Stepped {
        frame,
        floor: limiter.wedge_val[limiter.wedge_head],
        dropped: before + 1 - limiter.wedge_len,
        kept: limiter.wedge_len,
        tally: limiter.wm_nonunity,
        mean,
        gain,
    }
}

/// The floor keeper's part of the state: look, head, entries kept and frames.
#[cfg(any(test, feature = "probe"))]
pub(crate) fn ring_state(limiter: &Limiter) -> [u64; 4] {
    let counts = [limiter.look, limiter.wedge_head, limiter.wedge_len];
    let [look, head, len] = counts.map(|n| n as u64);
    [look, head, len, limiter.frame]
}

/// The floor keeper with its stores.
#[cfg(any(test, feature = "probe"))]
pub(crate) fn ring(limiter: &Limiter) -> Keeping {
    Keeping {
        state: ring_state(limiter),
        marks: limiter.wedge_idx.clone(),
        minima: limiter.wedge_val.clone(),
    }
}

/// The kernel's share of the state that crosses; the largest block and the bank
/// are the driver's.
pub(crate) fn state(limiter: &Limiter) -> State {
    State {
        setup: Setup {
            threshold: limiter.params[0].default,
            margin: limiter.true_peak_margin_db,
            lookahead: limiter.lookahead_ms,
            release: limiter.release_ms,
            left_out: 0,
            rate: limiter.fs as u32,
            channels: limiter.delays.len(),
            block: 0,
        },
        release_coeff: limiter.release_coeff,
        look: limiter.look as u64,
        head: limiter.wedge_head as u64,
        len: limiter.wedge_len as u64,
        frame: limiter.frame,
        row_pos: limiter.wm_pos as u64,
        tally: limiter.wm_nonunity as u64,
        gain: limiter.env,
        delay_pos: limiter.delay_pos as u64,
        target: limiter.flush_thresh,
        drained: limiter.flushed as u64,
        ..State::NEVER
    }
}

/// The gains that the last run of a block applied, frame by frame; it had as many.
pub(crate) fn gains(limiter: &Limiter, frames: usize) -> &[f64] {
    &limiter.env_scratch[..frames]
}

/// What the Rust holds in place of the lent stores.
pub(crate) fn stores(limiter: &Limiter) -> Stores {
    let bits = |floats: &[f64]| -> Vec<u64> { floats.iter().map(|x| x.to_bits()).collect() };
    let heard = limiter.tp_os.iter().flat_map(|os| bits(detector::store(os)));
    Stores([
        bits(&limiter.delays.concat()),
        limiter.wedge_idx.clone(),
        bits(&limiter.wedge_val),
        bits(&limiter.hann),
        bits(&limiter.wm_hist),
        heard.collect(),
    ])
}

/// Replace what a call may have left, as a host may do that owns state and
/// stores; the stores have their lengths.
pub(crate) fn forge(limiter: &mut Limiter, state: &State, stores: &Stores) {
    let [delay, minima, weights, row, heard] =
        [0, 2, 3, 4, 5].map(|which: usize| floats(&stores.0[which]));
    limiter.wedge_head = state.head as usize;
    limiter.wedge_len = state.len as usize;
    limiter.frame = state.frame;
    limiter.wm_pos = state.row_pos as usize;
    limiter.wm_nonunity = state.tally as usize;
    limiter.env = state.gain;
    limiter.delay_pos = state.delay_pos as usize;
    limiter.flush_thresh = state.target;
    limiter.flushed = state.drained as usize;
    limiter.delays = delay.chunks(limiter.look).map(<[f64]>::to_vec).collect();
    limiter.wedge_idx.clone_from(&stores.0[1]);
    limiter.wedge_val = minima;
    limiter.hann = weights;
    limiter.wm_hist = row;
    for (os, twelve) in limiter.tp_os.iter_mut().zip(heard.chunks(12)) {
        detector::set_store(os, twelve);
    }
}

/// The mean that the last step used. It is a local there, so it is summed
/// again here from the fields in the same order; `step` holds it to the gain.
fn mean(limiter: &Limiter) -> f64 {
    if limiter.wm_nonunity == 0 {
        return 1.0;
    }
    let rows = limiter.wm_hist.len();
    let newest = limiter.wm_pos + rows - 1;
    let mut sum = 0.0;
    for (back, weight) in limiter.hann.iter().enumerate() {
        sum += weight * limiter.wm_hist[(newest + rows - back) % rows];
    }
    sum
}

/// The gain that a mean leads to.
fn grown(old: f64, mean: f64, coefficient: f64) -> f64 {
    let old = finite_or_zero(old).clamp(0.0, 1.0);
    let new = if mean <= old {
        mean
    } else {
        old + (mean - old) * coefficient
    };
    finite_or_zero(new).clamp(0.0, 1.0)
}

#[cfg(test)]
mod tests {
    use super::*;

    fn rows(look: usize, gains: &[f64]) -> Vec<(f64, usize, usize)> {
        let mut limiter = prepared(look, 50.0).expect("a good look");
        let steps = gains.iter().map(|&g| step(&mut limiter, g));
        steps.map(|s| (s.floor, s.dropped, s.kept)).collect()
    }

    #[test]
    fn document_01_floors_example() {
        let expected = [(1.0, 0, 1), (0.5, 1, 1), (0.5, 0, 2)];
        assert_eq!(rows(11, &[1.0, 0.5, 0.75]), expected);
    }

    #[test]
    fn document_01_window_row() {
        let mut gains = [1.0; 13];
        gains[0] = 0.5;
        let seen = rows(11, &gains);
        assert!(seen[..12].iter().all(|s| s.0 == 0.5));
        assert_eq!(seen[12], (1.0, 2, 1));
    }

    #[test]
    fn document_01_odd_gains() {
        for (gain, counts_as) in [
            (f64::NAN, 0.0),
            (f64::INFINITY, 0.0),
            (-0.25, 0.0),
            (1.5, 1.0),
        ] {
            assert_eq!(rows(11, &[gain])[0].0, counts_as);
        }
    }

    /// What document 01 says of the floor and the tally, by plain scan; the
    /// assertion in `step` holds the mean to the gain meanwhile.
    #[test]
    fn floors_and_tallies_are_those_of_a_plain_scan() {
        let mut rng = crate::rng::Rng::new(2);
        for look in [11, 12, 13, 40, 72] {
            let mut limiter = prepared(look, 0.5).expect("a good look");
            let (mut gains, mut floors) = (Vec::new(), Vec::new());
            for _ in 0..2000 {
                let quiet = rng.below(3) > 0;
                let gain = if quiet { 1.0 } else { rng.unit() };
                gains.push(gain);
                let seen = step(&mut limiter, gain);
                let window = gains.iter().rev().take(look + 1);
                let floor = window.fold(1.0, |low: f64, g| low.min(*g));
                floors.push(floor);
                let row = floors.iter().rev().take((look - 11).max(1));
                assert_eq!(seen.floor, floor);
                assert_eq!(seen.tally, row.filter(|f| **f != 1.0).count());
            }
        }
    }

    /// The plain model of the keeper and the ring in the Rust's own fields.
    #[test]
    fn the_models_keeper_is_the_rusts() {
        let mut rng = crate::rng::Rng::new(5);
        for look in [11, 12, 40] {
            let mut limiter = prepared(look, 0.0).expect("a good look");
            let mut model = ring(&limiter);
            for _ in 0..1000 {
                let gain = crate::numbers::uniform(&mut rng, -0.2, 1.2);
                let (seen, told) = (step(&mut limiter, gain), model.step(gain));
                assert_eq!(told.floor, seen.floor.to_bits());
                assert_eq!(told.dropped, seen.dropped as u64);
                assert_eq!(told.kept, seen.kept as u64);
                assert!(model.same(&ring(&limiter)));
            }
        }
    }

    #[test]
    fn a_look_under_eleven_is_refused() {
        assert!(prepared(10, 50.0).is_err());
    }

    #[test]
    fn a_look_is_told_even_where_it_is_refused() {
        let looks = [0.21, 0.22, 1.5, 85.36].map(|ms| look(ms, 48_000));
        assert_eq!(looks, [10, 11, 72, 4097].map(Some));
        assert_eq!(look(1e300, 48_000), Some(usize::MAX));
        for ms in [0.0, -1.0, f64::NAN, f64::INFINITY] {
            assert_eq!(look(ms, 48_000), None);
        }
        assert_eq!(look(1.5, 0), None);
    }

    #[test]
    fn derived_values_are_those_of_the_settings() {
        let of = |release, rate| derived(-1.0, 0.1, release, rate).map(|d| d.release_coeff);
        assert_eq!(of(0.0, 48_000), Some(1.0));
        assert!(of(50.0, 8_000) > of(50.0, 192_000));
        assert_eq!(of(-1.0, 48_000), None);
        let target = |db| derived(db, 0.0, 50.0, 48_000).map(|d| d.target);
        assert_eq!(target(0.0), Some(1.0));
        assert_eq!(target(-40.0), target(-30.0));
    }
}
