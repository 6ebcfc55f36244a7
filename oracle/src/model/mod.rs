//! Rules of document 01, each as a plain model: those that the Rust does not
//! have, and the limiter whole.

pub mod calls;
pub mod detector;
mod frames;
pub mod house;
pub mod judge;
pub mod keeper;
pub mod place;
pub mod setup;
pub mod state;
pub mod threshold;
pub mod weights;
