//! The sample types that audio comes in.

use crate::sys;

mod private {
    use crate::sys::LentStores;

    pub type Process =
        fn(&mut [u8], &mut [u64], u64, usize, &[u64], &mut [u8], LentStores<'_>) -> u32;
    pub type Flush = fn(&mut [u8], &mut [u64], usize, &mut [u8], LentStores<'_>) -> u32;
    pub type Rearrange = fn(usize, &mut [u8]) -> u32;

    /// What is called for audio of a sample type.
    pub trait Calls {
        const PROCESS: Process;
        const FLUSH: Flush;
        const DEINTERLEAVE: Rearrange;
        const INTERLEAVE: Rearrange;
    }
}

/// The buffer element type: `f32` or `f64`, and sealed as in the Rust, so that
/// the C functions are lent no other bytes.
///
/// The limiter computes in f64 whatever the type is: an `f32` is widened exactly,
/// and its output rounded, after values below 1e-30 in magnitude became 0.0.
pub trait Sample: private::Calls + Copy + Send + 'static {
    /// The nearest sample, of two as near the even one.
    fn from_f64(x: f64) -> Self;
    /// The same number.
    fn to_f64(self) -> f64;
}

impl private::Calls for f32 {
    const PROCESS: private::Process = sys::process_float;
    const FLUSH: private::Flush = sys::flush_float;
    const DEINTERLEAVE: private::Rearrange = sys::deinterleave_float;
    const INTERLEAVE: private::Rearrange = sys::interleave_float;
}

impl Sample for f32 {
    fn from_f64(x: f64) -> Self {
        x as f32
    }
    fn to_f64(self) -> f64 {
        f64::from(self)
    }
}

impl private::Calls for f64 {
    const PROCESS: private::Process = sys::process;
    const FLUSH: private::Flush = sys::flush;
    const DEINTERLEAVE: private::Rearrange = sys::deinterleave;
    const INTERLEAVE: private::Rearrange = sys::interleave;
}

impl Sample for f64 {
    fn from_f64(x: f64) -> Self {
        x
    }
    fn to_f64(self) -> f64 {
        self
    }
}
