//! The proved code, called through the C functions of the library `probe`.

mod bank;
mod detector;
mod keeper;
mod leaves;
mod setup;

pub use bank::Bank;
pub use detector::{peak_abs, peak_phase, peaks_abs};
pub use keeper::{floors_setup, floors_step};
pub use leaves::leaf;
pub use setup::{coeff, house, look, refusal, target, weights};
