//! A call's audio: samples of one type, as the bytes that cross.

use std::ops::Range;

use crate::rng::Rng;
use crate::sample::Sample;

/// A call's sample type.
#[derive(Clone, Copy, Debug, PartialEq, Eq)]
pub enum Format {
    F64,
    F32,
}

/// The sample types of a session's calls: one from setup on, or one call by
/// call. `Any` is one of these, session by session.
#[derive(Clone, Copy, Debug, PartialEq, Eq)]
pub enum Types {
    F64,
    F32,
    Mixed,
    Any,
}

/// Planar audio as it is lent to a call.
#[derive(Clone, Debug, PartialEq, Eq)]
pub struct Audio {
    pub format: Format,
    pub bytes: Vec<u8>,
}

/// A sample type of the Rust that crosses as its bytes, low byte first.
pub trait Crossing: Sample {
    const FORMAT: Format;

    /// The sample in the first bytes.
    fn read(bytes: &[u8]) -> Self;

    fn write(self, bytes: &mut Vec<u8>);
}

impl Crossing for f64 {
    const FORMAT: Format = Format::F64;

    fn read(bytes: &[u8]) -> Self {
        Self::from_le_bytes(*bytes.first_chunk().expect("eight bytes"))
    }

    fn write(self, bytes: &mut Vec<u8>) {
        bytes.extend_from_slice(&self.to_le_bytes());
    }
}

impl Crossing for f32 {
    const FORMAT: Format = Format::F32;

    fn read(bytes: &[u8]) -> Self {
        Self::from_le_bytes(*bytes.first_chunk().expect("four bytes"))
    }

    fn write(self, bytes: &mut Vec<u8>) {
        bytes.extend_from_slice(&self.to_le_bytes());
    }
}

impl Format {
    /// The bytes of a sample.
    pub fn size(self) -> usize {
        match self {
            Self::F64 => 8,
            Self::F32 => 4,
        }
    }

    pub fn other(self) -> Self {
        match self {
            Self::F64 => Self::F32,
            Self::F32 => Self::F64,
        }
    }
}

impl Types {
    /// A session's: no longer `Any`.
    pub fn of_session(self, rng: &mut Rng) -> Self {
        match self {
            Self::Any => rng.pick(&[Self::F64, Self::F32, Self::Mixed]),
            types => types,
        }
    }

    /// A call's.
    pub fn of_call(self, rng: &mut Rng) -> Format {
        match self {
            Self::F64 => Format::F64,
            Self::F32 => Format::F32,
            Self::Mixed | Self::Any => rng.pick(&[Format::F64, Format::F32]),
        }
    }

    /// The one that a limiter is set up with.
    pub fn first(self) -> Format {
        match self {
            Self::F32 => Format::F32,
            _ => Format::F64,
        }
    }
}

impl Audio {
    pub fn of<T: Crossing>(samples: &[T]) -> Self {
        let mut bytes = Vec::with_capacity(T::FORMAT.size() * samples.len());
        samples.iter().for_each(|x| x.write(&mut bytes));
        Self {
            format: T::FORMAT,
            bytes,
        }
    }

    /// The channels, of the type that the audio has.
    pub fn planes<T: Crossing>(&self, channels: usize) -> Vec<Vec<T>> {
        assert_eq!(self.format, T::FORMAT, "audio of another type");
        let whole = self.bytes.chunks_exact(self.format.size());
        let samples: Vec<T> = whole.map(T::read).collect();
        let frames = samples.len() / channels;
        let plane = |channel: usize| samples[channel * frames..][..frames].to_vec();
        (0..channels).map(plane).collect()
    }

    /// The sample at a place as it is heard: 32 bits are widened.
    pub fn sample(&self, at: usize) -> f64 {
        let bytes = &self.bytes[self.format.size() * at..];
        match self.format {
            Format::F64 => f64::read(bytes),
            Format::F32 => f64::from(f32::read(bytes)),
        }
    }

    /// An output into its place: at 32 bits the nearest, a tie to the even one.
    pub fn put(&mut self, at: usize, output: f64) {
        let size = self.format.size();
        let place = &mut self.bytes[size * at..size * (at + 1)];
        match self.format {
            Format::F64 => place.copy_from_slice(&output.to_le_bytes()),
            Format::F32 => place.copy_from_slice(&(output as f32).to_le_bytes()),
        }
    }

    /// The sample of another audio's place, bit for bit.
    pub fn copy(&mut self, at: usize, from: &Self, place: usize) {
        assert_eq!(self.format, from.format, "audio of another type");
        let size = self.format.size();
        let bytes = &from.bytes[size * place..size * (place + 1)];
        self.bytes[size * at..size * (at + 1)].copy_from_slice(bytes);
    }

    /// Some frames of planar audio.
    pub fn part(&self, channels: usize, frames: Range<usize>) -> Self {
        let (size, width) = (self.format.size(), self.len() / channels);
        let plane = |channel: usize| {
            let first = size * (channel * width + frames.start);
            self.bytes[first..first + size * frames.len()].iter()
        };
        Self {
            format: self.format,
            bytes: (0..channels).flat_map(plane).copied().collect(),
        }
    }

    /// The bits of the sample at a place; a last one may be short of bytes.
    pub fn bits(&self, at: usize) -> u64 {
        let size = self.format.size();
        let bytes = self.bytes[size * at..].iter().take(size);
        bytes.rev().fold(0, |w, &byte| w << 8 | u64::from(byte))
    }

    /// The same for a reader, with its decimal form.
    pub fn shown(&self, at: usize) -> String {
        let bits = self.bits(at);
        match self.format {
            Format::F64 => format!("{bits:016x} ({:?})", f64::from_bits(bits)),
            Format::F32 => format!("{bits:08x} ({:?})", f32::from_bits(bits as u32)),
        }
    }

    /// Whole samples.
    pub fn len(&self) -> usize {
        self.bytes.len() / self.format.size()
    }
}

#[cfg(test)]
mod tests {
    use super::*;

    #[test]
    fn samples_cross_low_byte_first() {
        let narrow = Audio::of(&[1.0f32, -2.0]);
        assert_eq!(narrow.bytes, [0, 0, 0x80, 0x3f, 0, 0, 0, 0xc0]);
        assert_eq!((narrow.len(), narrow.bits(1)), (2, 0xc000_0000));
        let wide = Audio::of(&[1.0f64]);
        assert_eq!(wide.bytes, [0, 0, 0, 0, 0, 0, 0xf0, 0x3f]);
        assert_eq!(wide.planes::<f64>(1), [[1.0]]);
        assert_eq!(narrow.planes::<f32>(2), [[1.0], [-2.0]]);
    }

    #[test]
    fn parts_are_planar_and_samples_keep_their_bits() {
        let samples = [1.0, 2.0, 3.0, -0.0, f32::NAN, 6.0];
        let audio = Audio::of(&samples);
        let bits = |audio: &Audio| {
            (0..audio.len())
                .map(|at| audio.bits(at))
                .collect::<Vec<_>>()
        };
        let due = |samples: &[f32]| bits(&Audio::of(samples));
        assert_eq!(bits(&audio.part(2, 0..2)), due(&[1.0, 2.0, -0.0, f32::NAN]));
        assert_eq!(bits(&audio.part(2, 2..3)), due(&[3.0, 6.0]));
        assert_eq!(bits(&audio.part(2, 3..3)), due(&[]));
        let mut other = Audio::of(&[7.0f32; 2]);
        other.copy(1, &audio, 4);
        assert_eq!(bits(&other), due(&[7.0, f32::NAN]));
    }

    /// 1 + 2^-24 lies between two f32, of which 1 is the even one.
    #[test]
    fn outputs_go_to_the_nearest() {
        let tie = 1.0 + f64::from(f32::EPSILON) / 2.0;
        for (output, bits) in [
            (tie, 0x3f80_0000),
            (tie.next_up(), 0x3f80_0001),
            (-tie, 0xbf80_0000),
            (1e300, 0x7f80_0000),
        ] {
            let mut audio = Audio::of(&[0.0f32; 2]);
            audio.put(1, output);
            assert_eq!([audio.bits(0), audio.bits(1)], [0, bits]);
        }
    }

    #[test]
    fn sessions_of_any_types_are_of_each() {
        let mut rng = Rng::new(1);
        let drawn: Vec<Types> = (0..50).map(|_| Types::Any.of_session(&mut rng)).collect();
        for types in [Types::F64, Types::F32, Types::Mixed] {
            assert!(drawn.contains(&types));
            assert_eq!(types.of_session(&mut rng), types);
        }
    }
}
