//! Signals that ask to stop: the work ends at the next block and removes what
//! is unfinished. A second signal ends it at once.

#![allow(unsafe_code)]

use std::ffi::c_int;
use std::sync::atomic::{AtomicU8, Ordering};

use crate::failure::Failure;

const HANGUP: c_int = 1;
const INTERRUPT: c_int = 2;
const TERMINATE: c_int = 15;

/// The signal that came, or 0.
static CAME: AtomicU8 = AtomicU8::new(0);

/// The system's own way with a signal, SIG_DFL.
const DEFAULT: usize = 0;

extern "C" {
    fn signal(number: c_int, handler: usize) -> usize;
}

/// Stores a number and goes back to the system's own way: a handler may do both.
extern "C" fn note(number: c_int) {
    CAME.store(number as u8, Ordering::Relaxed);
    unsafe { signal(number, DEFAULT) };
}

/// Listens from now on.
pub fn listen() {
    for number in [HANGUP, INTERRUPT, TERMINATE] {
        unsafe { signal(number, note as *const () as usize) };
    }
}

/// Fails once a signal has come.
///
/// # Errors
/// The signal's status.
pub fn check() -> Result<(), Failure> {
    match CAME.load(Ordering::Relaxed) {
        0 => Ok(()),
        number => Err(Failure::signal(number)),
    }
}
