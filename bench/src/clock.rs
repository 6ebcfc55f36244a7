//! The time that this thread, or a child process, has run, without the time that
//! others took from it: a busy machine disturbs it less than the clock on the
//! wall.

#![allow(unsafe_code)]

use std::ffi::{c_int, c_long};

#[repr(C)]
struct Time {
    seconds: i64,
    nanoseconds: c_long,
}

/// Linux's CLOCK_THREAD_CPUTIME_ID.
const THREAD: c_int = 3;

#[repr(C)]
#[derive(Default)]
struct Part {
    seconds: i64,
    microseconds: i64,
}

impl Part {
    fn nanoseconds(&self) -> f64 {
        self.seconds as f64 * 1e9 + self.microseconds as f64 * 1e3
    }
}

/// Linux's rusage.
#[repr(C)]
#[derive(Default)]
struct Usage {
    user: Part,
    system: Part,
    other: [c_long; 14],
}

/// Linux's RUSAGE_CHILDREN.
const CHILDREN: c_int = -1;

extern "C" {
    fn clock_gettime(clock: c_int, time: *mut Time) -> c_int;
    fn getrusage(who: c_int, usage: *mut Usage) -> c_int;
}

/// ns since the thread's start.
fn now() -> f64 {
    let mut time = Time {
        seconds: 0,
        nanoseconds: 0,
    };
    let failed = unsafe { clock_gettime(THREAD, &mut time) };
    assert_eq!(failed, 0, "no clock of the thread's own time");
    time.seconds as f64 * 1e9 + time.nanoseconds as f64
}

/// ns that some work takes.
pub fn timed(work: impl FnOnce()) -> f64 {
    let started = now();
    work();
    now() - started
}

/// ns of processor time, user and system, of the children waited for so far.
fn children() -> f64 {
    let mut usage = Usage::default();
    let failed = unsafe { getrusage(CHILDREN, &mut usage) };
    assert_eq!(failed, 0, "no time of the children");
    usage.user.nanoseconds() + usage.system.nanoseconds()
}

/// ns of processor time of the children that some work starts and waits for.
pub fn timed_children(work: impl FnOnce()) -> f64 {
    let started = children();
    work();
    children() - started
}

#[cfg(test)]
mod tests {
    use super::*;
    use std::process::Command;

    #[test]
    fn a_child_that_counts_takes_time() {
        let script = "i=0; while [ $i -lt 20000 ]; do i=$((i + 1)); done";
        let time = timed_children(|| {
            let status = Command::new("sh").args(["-c", script]).status();
            assert!(status.expect("sh").success());
        });
        assert!((1e5..1e11).contains(&time), "{time} ns");
    }
}
