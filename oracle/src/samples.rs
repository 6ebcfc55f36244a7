//! The samples of recorded sessions, which whoever replays them draws too, and
//! the digest of their outputs.

use crate::audio::{Audio, Format};

/// The samples that a session renders, drawn by xorshift.
pub struct Source {
    pub format: Format,
    pub state: u64,
    pub kind: u64,
}

impl Source {
    fn next(&mut self) -> u64 {
        self.state ^= self.state << 13;
        self.state ^= self.state >> 7;
        self.state ^= self.state << 17;
        self.state
    }

    /// The next samples, as the bytes of planar audio.
    pub fn audio(&mut self, samples: usize) -> Audio {
        let mut bytes = Vec::with_capacity(8 * samples);
        for _ in 0..samples {
            let word = shape(self.kind, self.next());
            match self.format {
                Format::F64 => bytes.extend(word.to_le_bytes()),
                Format::F32 => bytes.extend(single(self.kind, word).to_le_bytes()),
            }
        }
        Audio {
            format: self.format,
            bytes,
        }
    }
}

/// A sample's bits from a random word: 0 anything, 1 and 2 up to full scale
/// with few and with many exponents, 3 full scale, 4 rare samples among
/// silence, 5 subnormal or nearly so.
fn shape(kind: u64, word: u64) -> u64 {
    let scaled = |mask: u64| (word & 0x800f_ffff_ffff_ffff) | (1023 - (word >> 52 & mask)) << 52;
    match kind {
        0 => word,
        1 => scaled(7),
        2 => scaled(31),
        3 => (word & 1 << 63) | 1.0f64.to_bits(),
        4 if word >> 52 & 63 == 0 => word,
        4 => 0,
        _ => word & 0x801f_ffff_ffff_ffff,
    }
}

/// The same at 32 bits: the sign, the low seven digits of the exponent and the
/// first 23 of the fraction, which is the same number for exponents from 896 to
/// 1023 and as small a one for 0 and 1; where any pattern may stand, the low half.
fn single(kind: u64, bits: u64) -> u32 {
    match kind {
        0 | 4 => bits as u32,
        _ => (bits >> 32) as u32 & 0x8000_0000 | (bits >> 29) as u32 & 0x3fff_ffff,
    }
}

/// FNV-1a over the first `frames` of each channel of `width` frames, a whole
/// sample at a step.
pub fn digest(audio: &Audio, width: usize, frames: usize) -> u64 {
    let places = (0..audio.len()).filter(|at| at % width < frames);
    places.fold(0xcbf2_9ce4_8422_2325, |d: u64, at| {
        (d ^ audio.bits(at)).wrapping_mul(0x0000_0100_0000_01b3)
    })
}

#[cfg(test)]
mod tests {
    use super::*;

    fn source(kind: u64, state: u64, format: Format) -> Source {
        Source {
            format,
            state,
            kind,
        }
    }

    #[test]
    fn samples_are_those_of_the_format() {
        let mut drawn = source(0, 1, Format::F64);
        assert_eq!(drawn.next(), 0x4082_2041);
        assert_eq!(drawn.next(), 0x1000_4106_0c01_1441);
        let word = 0xc0a5_0000_0000_0007;
        let shapes = [0, 1, 2, 3, 4, 5].map(|kind| shape(kind, word));
        let expected = [
            word,
            0xbfd5_0000_0000_0007,
            0xbf55_0000_0000_0007,
            0xbff0_0000_0000_0000,
            0,
            0x8005_0000_0000_0007,
        ];
        assert_eq!(shapes, expected);
        assert_eq!(shape(4, 0xc005_0000_0000_0007), 0xc005_0000_0000_0007);
        assert_eq!(shape(5, u64::MAX), 0x801f_ffff_ffff_ffff);
    }

    /// Loud samples are the same numbers but for the digits that are cut off.
    #[test]
    fn single_samples_are_those_of_the_format() {
        for word in [0xc0a5_0000_0000_0007, u64::MAX, 0x1234_5678_9abc_def0] {
            for kind in [1, 2, 3] {
                let bits = shape(kind, word);
                let cut = f64::from_bits(bits & !0x1fff_ffff);
                assert_eq!(f64::from(f32::from_bits(single(kind, bits))), cut);
            }
            let tiny = f32::from_bits(single(5, shape(5, word)));
            assert!(tiny.abs() < 2.0 * f32::MIN_POSITIVE && tiny != 0.0);
            assert_eq!(single(0, shape(0, word)), word as u32);
        }
        let drawn = source(0, 1, Format::F32).audio(2);
        assert_eq!([drawn.bits(0), drawn.bits(1)], [0x4082_2041, 0x0c01_1441]);
    }

    /// The published hashes of no byte, a zero byte and the letter a.
    #[test]
    fn digests_are_the_published_ones() {
        let letter = f64::from_bits(u64::from(b'a'));
        let of = |samples: &[f64], width, frames| digest(&Audio::of(samples), width, frames);
        assert_eq!(of(&[], 0, 0), 0xcbf2_9ce4_8422_2325);
        assert_eq!(of(&[0.0, 1.0], 2, 1), 0xaf63_bd4c_8601_b7df);
        assert_eq!(of(&[letter], 1, 1), 0xaf63_dc4c_8601_ec8c);
        let channels = [0.5, 0.25, 1.0, 2.0];
        assert_eq!(of(&channels, 2, 2), of(&channels, 4, 4));
        assert_eq!(of(&channels, 2, 1), of(&[0.5, 1.0], 2, 2));
        let narrow = Audio::of(&[0.0f32, f32::from_bits(u32::from(b'a'))]);
        assert_eq!(digest(&narrow, 2, 1), of(&[0.0], 1, 1));
        assert_eq!(digest(&narrow, 2, 2), of(&[0.0, letter], 2, 2));
    }
}
