//! f64 of every kind: ordinary ones, those at the ends of the format, those
//! that are no numbers, and the neighbours of values where code branches.

use crate::rng::Rng;

/// The one pattern that stands for every NaN in an answer.
pub const NAN: u64 = 0x7ff8_0000_0000_0000;

/// All bits but the sign.
const MAGNITUDE: u64 = !SIGN;

/// The sign bit.
const SIGN: u64 = 1 << 63;

/// Magnitudes where something changes: the ends of the subnormal, normal and
/// finite ranges, the denormal floor 1e-30, the clamp limits, the halves and
/// the sizes at which a float stops having halves or leaves u64.
const EDGES: [u64; 25] = [
    0,
    1,
    0x000f_ffff_ffff_ffff,
    0x0010_0000_0000_0000,
    0x39b4_484b_feeb_c29f, // just below 1e-30
    0x39b4_484b_feeb_c2a0,
    0x3fdf_ffff_ffff_ffff, // just below a half
    0x3fe0_0000_0000_0000,
    0x3fef_ffff_ffff_ffff,
    0x3ff0_0000_0000_0000,
    0x3ff0_0000_0000_0001,
    0x3ff8_0000_0000_0000, // 1.5
    0x4004_0000_0000_0000, // 2.5
    0x403e_0000_0000_0000, // 30
    0x431f_ffff_ffff_ffff, // 2^51 - 1/4
    0x432f_ffff_ffff_ffff, // 2^52 - 1/2
    0x4330_0000_0000_0000, // 2^52
    0x4340_0000_0000_0000, // 2^53
    0x43e0_0000_0000_0000, // 2^63
    0x43ef_ffff_ffff_ffff, // the last below 2^64
    0x43f0_0000_0000_0000, // 2^64
    0x7fef_ffff_ffff_ffff,
    0x7ff0_0000_0000_0000, // infinity
    0x7ff0_0000_0000_0001, // a signalling NaN
    NAN,
];

/// Every edge with both signs.
pub fn edges() -> Vec<f64> {
    let signed = |&bits: &u64| [f64::from_bits(bits), f64::from_bits(bits | SIGN)];
    EDGES.iter().flat_map(signed).collect()
}

/// A random edge with a random sign.
pub fn edge(rng: &mut Rng) -> f64 {
    f64::from_bits(rng.pick(&EDGES) | (rng.word() & SIGN))
}

/// Uniform from `low` up to `high`.
pub fn uniform(rng: &mut Rng, low: f64, high: f64) -> f64 {
    low + rng.unit() * (high - low)
}

/// Any finite value: the exponent is uniform up to `top`, an exponent field.
pub fn log_uniform(rng: &mut Rng, top: u64) -> f64 {
    let exponent = rng.below(top + 1) << 52;
    f64::from_bits((rng.word() & !(0x7ff << 52)) | exponent)
}

/// A subnormal number or a zero.
pub fn subnormal(rng: &mut Rng) -> f64 {
    f64::from_bits(rng.word() & !(0x7ff << 52))
}

/// A zero, or one of the smallest numbers that there are.
pub fn smallest(rng: &mut Rng) -> f64 {
    f64::from_bits(rng.pick(&[0, 0, 0, 1, 1, 2, 3]) | (rng.word() & SIGN))
}

/// A finite number of about 1e308, where sums and products overflow.
pub fn huge(rng: &mut Rng) -> f64 {
    f64::from_bits((rng.word() & !(0x7ff << 52)) | (0x7fe << 52))
}

/// An infinity or a NaN of any payload.
pub fn not_finite(rng: &mut Rng) -> f64 {
    let payload = if rng.below(2) == 0 { 0 } else { rng.word() };
    f64::from_bits(payload | (0x7ff << 52) | (rng.word() & SIGN))
}

/// At most `ulps` steps of the magnitude away from `x`, on either side.
pub fn near(rng: &mut Rng, x: f64, ulps: u64) -> f64 {
    let step = rng.below(2 * ulps + 1) as i64 - ulps as i64;
    stepped(x, step)
}

/// `x` with `step` added to its magnitude's bits; the sign stays.
pub fn stepped(x: f64, step: i64) -> f64 {
    let magnitude = (x.to_bits() & MAGNITUDE).saturating_add_signed(step);
    f64::from_bits(magnitude.min(MAGNITUDE) | (x.to_bits() & SIGN))
}

/// A float of any kind, no kind being rare.
pub fn any(rng: &mut Rng) -> f64 {
    match rng.below(10) {
        0 => uniform(rng, -1.0, 1.0),
        1 => uniform(rng, -1000.0, 1000.0),
        2 => log_uniform(rng, 0x7fe),
        3 => subnormal(rng),
        4 => huge(rng),
        5 => not_finite(rng),
        6 => edge(rng),
        7 => {
            let x = edge(rng);
            near(rng, x, 64)
        }
        8 => rng.below(2001) as f64 - 1000.0,
        _ => f64::from_bits(rng.word()),
    }
}

/// A float of any kind but NaN.
pub fn any_number(rng: &mut Rng) -> f64 {
    loop {
        let x = any(rng);
        if !x.is_nan() {
            return x;
        }
    }
}

/// The bits of `x`, every NaN being the same one.
pub fn canonical(x: f64) -> u64 {
    if x.is_nan() {
        NAN
    } else {
        x.to_bits()
    }
}

#[cfg(test)]
mod tests {
    use super::*;

    #[test]
    fn the_denormal_floor_is_among_the_edges() {
        let floor = crate::dsp::sanitize::DENORMAL_FLOOR;
        assert!(edges().contains(&floor));
        assert!(edges().contains(&stepped(floor, -1)));
    }

    #[test]
    fn steps_keep_the_sign_and_stop_at_zero() {
        assert_eq!(stepped(-0.0, -1).to_bits(), SIGN);
        assert_eq!(stepped(1.0, 1).to_bits(), 0x3ff0_0000_0000_0001);
        assert_eq!(stepped(-1.0, -1).to_bits(), 0xbfef_ffff_ffff_ffff);
    }

    #[test]
    fn kinds_are_what_they_say() {
        let mut rng = Rng::new(3);
        for _ in 0..1000 {
            assert!(subnormal(&mut rng).abs() < f64::MIN_POSITIVE);
            assert!(huge(&mut rng).is_finite() && huge(&mut rng).abs() > 8e307);
            assert!(!not_finite(&mut rng).is_finite());
            assert!(log_uniform(&mut rng, 0x7fe).is_finite());
            assert!(!any_number(&mut rng).is_nan());
        }
    }
}
