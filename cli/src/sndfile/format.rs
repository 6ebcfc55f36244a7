//! What a sound file is: container, encoding, rate and channels.

use super::handle::Info;

const CONTAINER: i32 = 0x0FFF_0000;
const ENCODING: i32 = 0x0000_FFFF;

/// Containers that are taken, by libsndfile's numbers.
const CONTAINERS: [(i32, &str); 5] = [
    (0x01_0000, "WAV"),
    (0x13_0000, "WAV"), // with WAVEFORMATEXTENSIBLE
    (0x22_0000, "RF64"),
    (0x02_0000, "AIFF"),
    (0x17_0000, "FLAC"),
];

/// How a sample is kept in the file.
#[derive(Clone, Copy, Debug, PartialEq, Eq)]
pub enum Encoding {
    /// Whole numbers of this many bits.
    Pcm(u32),
    /// binary32.
    Float,
    /// binary64.
    Double,
}

impl Encoding {
    fn of(format: i32) -> Option<Self> {
        Some(match format & ENCODING {
            1 | 5 => Self::Pcm(8),
            2 => Self::Pcm(16),
            3 => Self::Pcm(24),
            4 => Self::Pcm(32),
            6 => Self::Float,
            7 => Self::Double,
            _ => return None,
        })
    }

    /// The nearest of the file's whole numbers: of two as near the even one, and
    /// none past full scale. No dither. A float stays as it is.
    #[must_use]
    pub fn round(self, x: f64) -> f64 {
        match self {
            Self::Pcm(bits) => {
                let scale = f64::from(1_u32 << (bits - 1));
                (x * scale).round_ties_even().clamp(-scale, scale - 1.0) / scale
            }
            Self::Float | Self::Double => x,
        }
    }

    /// Its name for a reader.
    #[must_use]
    pub fn name(self) -> String {
        match self {
            Self::Pcm(bits) => format!("{bits} bit"),
            Self::Float => "32 bit float".into(),
            Self::Double => "64 bit float".into(),
        }
    }
}

/// What a sound file is.
#[derive(Clone, Copy, Debug, PartialEq, Eq)]
pub struct Format {
    number: i32,
    /// How its samples are kept.
    pub encoding: Encoding,
    /// Frames a second.
    pub rate: u32,
    /// Channels.
    pub channels: usize,
}

impl Format {
    /// 24 bits in a WAV.
    #[must_use]
    pub fn wav_24(rate: u32, channels: usize) -> Self {
        Self {
            number: 0x01_0003,
            encoding: Encoding::Pcm(24),
            rate,
            channels,
        }
    }

    /// A format by libsndfile's number, or the line that says why not.
    ///
    /// # Errors
    /// Another container or encoding than those that are taken.
    pub fn numbered(number: i32, rate: u32, channels: usize) -> Result<Self, String> {
        if container(number).is_none() {
            return Err("not a WAV, FLAC or AIFF file".into());
        }
        let encoding = Encoding::of(number)
            .ok_or("its samples are neither whole numbers of 8 to 32 bits nor floats")?;
        Ok(Self {
            number,
            encoding,
            rate,
            channels,
        })
    }

    pub(super) fn of(info: &Info) -> Result<Self, String> {
        let rate = u32::try_from(info.rate).unwrap_or(0);
        let channels = usize::try_from(info.channels).unwrap_or(0);
        Self::numbered(info.format, rate, channels)
    }

    pub(super) fn info(&self) -> Info {
        Info {
            rate: i32::try_from(self.rate).unwrap_or(i32::MAX),
            channels: i32::try_from(self.channels).unwrap_or(i32::MAX),
            format: self.number,
            ..Info::default()
        }
    }

    /// The container's name.
    #[must_use]
    pub fn container(&self) -> &'static str {
        container(self.number).unwrap_or("unknown")
    }
}

fn container(number: i32) -> Option<&'static str> {
    let kind = number & CONTAINER;
    let found = CONTAINERS.iter().find(|(n, _)| *n == kind);
    found.map(|(_, name)| *name)
}

#[cfg(test)]
mod tests {
    use super::*;

    #[test]
    fn samples_round_to_the_nearest_and_ties_to_even() {
        let step = 1.0 / 32768.0;
        let round = |x: f64| Encoding::Pcm(16).round(x * step) / step;
        assert_eq!(
            [0.4, 0.5, 1.5, 2.5, -0.6].map(round),
            [0.0, 0.0, 2.0, 2.0, -1.0]
        );
        assert_eq!(Encoding::Pcm(16).round(1.0), 32767.0 * step);
        assert_eq!(Encoding::Pcm(16).round(-1.5), -1.0);
        assert_eq!(Encoding::Pcm(24).round(0.1), 838_861.0 / 8_388_608.0);
        assert_eq!(
            Encoding::Pcm(32).round(2.0),
            2_147_483_647.0 / 2_147_483_648.0
        );
        assert_eq!(Encoding::Float.round(0.1), 0.1);
    }

    #[test]
    fn other_formats_are_refused() {
        assert!(Format::numbered(0x01_0010, 48_000, 1).is_err());
        assert!(Format::numbered(0x20_0060, 48_000, 1).is_err());
        assert_eq!(Format::wav_24(48_000, 2).container(), "WAV");
    }
}
