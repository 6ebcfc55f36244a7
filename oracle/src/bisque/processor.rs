//! The names that the Rust's files take from `crate::processor`.

pub use crate::block::{AudioBlockMut, IoMode};
pub use crate::context::{Produced, SubBlock, Tail};
pub use crate::dsp::driver::KernelProcessor;
pub use crate::error::DspError;
pub use crate::sample::Sample;
pub use crate::spec::ProcessSpec;
pub use crate::traits::Kernel;
