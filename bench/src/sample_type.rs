//! The sample types that audio comes in.

/// Which of the two.
#[derive(Clone, Copy, Debug, PartialEq, Eq)]
pub enum SampleType {
    /// f64.
    F64,
    /// f32.
    F32,
}

impl SampleType {
    /// By its name.
    pub fn named(name: &str) -> Option<Self> {
        match name {
            "f64" => Some(Self::F64),
            "f32" => Some(Self::F32),
            _ => None,
        }
    }
}

/// A sample type of both limiters.
pub trait Sample: daggeryuzu::Sample + crate::processor::Sample {
    /// As a number, which is 0 for 0.0.
    fn bits(self) -> u64;
    /// From its bits.
    fn of_bits(bits: u64) -> Self;
}

impl Sample for f64 {
    fn bits(self) -> u64 {
        self.to_bits()
    }
    fn of_bits(bits: u64) -> Self {
        Self::from_bits(bits)
    }
}

impl Sample for f32 {
    fn bits(self) -> u64 {
        self.to_bits().into()
    }
    fn of_bits(bits: u64) -> Self {
        Self::from_bits(bits as u32)
    }
}
