//! Tables of weights beside the limits of the weights rule.

#[cfg(any(test, feature = "probe"))]
mod built;
#[cfg(any(test, feature = "probe"))]
mod damaged;
mod edges;
mod moves;
#[cfg(any(test, feature = "probe"))]
mod tally;
#[cfg(test)]
mod tests;

#[cfg(feature = "probe")]
pub use damaged::{own, Tables};
pub use edges::aim;
#[cfg(feature = "probe")]
pub use tally::{expected, Tally};
