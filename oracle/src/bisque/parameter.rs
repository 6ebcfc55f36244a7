//! The names that the Rust's files take from `crate::parameter`.

pub use crate::param::{ParamId, ParamInfo, Params, Unit, ValueScale};
