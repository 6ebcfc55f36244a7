//! Sound files through libsndfile: streams of interleaved samples, each the very
//! number that the file holds.

mod extras;
mod format;
mod handle;
mod reader;
mod speaker;
mod whole;
mod writer;

pub use format::{Encoding, Format};
pub use reader::Reader;
pub use speaker::Speaker;
pub use writer::Writer;

/// A sample type that is read, limited and written.
pub trait Sample: daggeryuzu::Sample + handle::Item {
    /// Whether it holds every sample of a file of this encoding.
    fn holds(encoding: Encoding) -> bool;
}

impl Sample for f32 {
    fn holds(encoding: Encoding) -> bool {
        matches!(encoding, Encoding::Pcm(..=24) | Encoding::Float)
    }
}

impl Sample for f64 {
    fn holds(_: Encoding) -> bool {
        true
    }
}

/// What samples left-justified in 32 bits are multiples of.
const STEP: f64 = 1.0 / 2_147_483_648.0;
