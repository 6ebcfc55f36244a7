//! f32 of every kind: those at the ends of the format, those that are no numbers
//! and those close to where outputs become silence.

use crate::dsp::sanitize::DENORMAL_FLOOR;
use crate::rng::Rng;

/// The sign bit, and the field of the exponent.
const SIGN: u32 = 1 << 31;
const EXPONENT: u32 = 0xff << 23;

/// The largest exponent field of a finite number.
pub const TOP: u32 = 0xfe;

/// The one pattern that stands for every NaN in an answer.
const NAN: u32 = 0x7fc0_0000;

/// The bits of `x`, every NaN being the same one.
pub fn canonical(x: f32) -> u32 {
    if x.is_nan() {
        NAN
    } else {
        x.to_bits()
    }
}

/// 32 random bits.
fn word(rng: &mut Rng) -> u32 {
    (rng.word() >> 32) as u32
}

/// A number with this exponent field.
fn scaled(exponent: u32, rng: &mut Rng) -> f32 {
    f32::from_bits((word(rng) & !EXPONENT) | exponent << 23)
}

/// Any finite value: the exponent is uniform.
pub fn log_uniform(rng: &mut Rng) -> f32 {
    let exponent = rng.below(u64::from(TOP) + 1) as u32;
    scaled(exponent, rng)
}

/// A finite number of about 2^127.
pub fn huge(rng: &mut Rng) -> f32 {
    scaled(TOP, rng)
}

/// A subnormal number, or one close to the magnitude below which outputs become
/// silence: at gain 1, and at smaller ones.
pub fn faint(rng: &mut Rng) -> f32 {
    match rng.below(3) {
        0 => scaled(0, rng),
        1 => {
            let floor = (DENORMAL_FLOOR as f32).to_bits();
            f32::from_bits((floor - 4 + rng.below(9) as u32) | (word(rng) & SIGN))
        }
        _ => {
            let exponent = 27 + rng.below(20) as u32;
            scaled(exponent, rng)
        }
    }
}

/// An infinity or a NaN of any payload.
pub fn not_finite(rng: &mut Rng) -> f32 {
    let payload = if rng.below(2) == 0 { 0 } else { word(rng) };
    f32::from_bits(payload | EXPONENT | (word(rng) & SIGN))
}

/// An f32 of any kind, no kind being rare.
pub fn any(rng: &mut Rng) -> f32 {
    match rng.below(6) {
        0 => log_uniform(rng),
        1 => huge(rng),
        2 => faint(rng),
        3 => not_finite(rng),
        4 => rng.pick(&[0.0, -0.0, 1.0, f32::MAX, f32::MIN, f32::MIN_POSITIVE]),
        _ => f32::from_bits(word(rng)),
    }
}

#[cfg(test)]
mod tests {
    use super::*;

    #[test]
    fn kinds_are_what_they_say() {
        let mut rng = Rng::new(3);
        let (mut below, mut above) = (false, false);
        for _ in 0..1000 {
            assert!(log_uniform(&mut rng).is_finite());
            assert!(huge(&mut rng).is_finite() && huge(&mut rng).abs() >= 2f32.powi(127));
            assert!(!not_finite(&mut rng).is_finite());
            let x = faint(&mut rng);
            assert!(x.abs() < 2e-24);
            let close = (f64::from(x).abs() / DENORMAL_FLOOR - 1.0).abs() < 1e-6;
            below |= close && f64::from(x).abs() < DENORMAL_FLOOR;
            above |= close && f64::from(x).abs() >= DENORMAL_FLOOR;
        }
        assert!(below && above);
    }
}
