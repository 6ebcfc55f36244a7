//! A bar on a terminal; nothing elsewhere.

use std::io::{self, IsTerminal, Write};
use std::time::{Duration, Instant};

use crate::words::clock;

const WIDTH: u64 = 30;
const PAUSE: Duration = Duration::from_millis(100);

/// How far the work is, on stderr.
#[derive(Debug)]
pub struct Progress {
    shown: bool,
    frames: Option<u64>,
    rate: u32,
    started: Instant,
    last: Option<Instant>,
}

impl Progress {
    /// For a stream of this many frames, where that is known.
    #[must_use]
    pub fn new(frames: Option<u64>, rate: u32) -> Self {
        Self {
            shown: io::stderr().is_terminal(),
            frames,
            rate,
            started: Instant::now(),
            last: None,
        }
    }

    /// Shows how far the work is, a few times a second.
    pub fn show(&mut self, frame: u64) {
        if self.shown && self.last.is_none_or(|t| t.elapsed() >= PAUSE) {
            self.last = Some(Instant::now());
            let line = bar(frame, self.frames, self.rate, self.started.elapsed());
            let _ = write!(io::stderr(), "\r\x1b[K{line}");
        }
    }
}

impl Drop for Progress {
    fn drop(&mut self) {
        if self.shown {
            let _ = write!(io::stderr(), "\r\x1b[K");
        }
    }
}

fn bar(frame: u64, frames: Option<u64>, rate: u32, elapsed: Duration) -> String {
    let seconds = frame as f64 / f64::from(rate.max(1));
    let speed = seconds / elapsed.as_secs_f64().max(1e-9);
    let at = clock(frame, rate);
    match frames {
        Some(all) if all > 0 => {
            let full = (frame.saturating_mul(WIDTH) / all).min(WIDTH) as usize;
            let percent = frame.saturating_mul(100) / all;
            let bar = format!("{}{}", "█".repeat(full), "░".repeat(WIDTH as usize - full));
            format!(
                "{bar} {percent:3} %  {at} of {}  {speed:.0} x",
                clock(all, rate)
            )
        }
        _ => format!("{at}  {speed:.0} x"),
    }
}

#[cfg(test)]
mod tests {
    use super::*;

    #[test]
    fn the_bar_tells_part_and_time() {
        let line = bar(24_000, Some(48_000), 48_000, Duration::from_millis(10));
        assert_eq!(line.matches('█').count(), 15);
        assert!(
            line.ends_with("50 %  00:00:00.500 of 00:00:01.000  50 x"),
            "{line}"
        );
        let line = bar(48_000, None, 48_000, Duration::from_secs(1));
        assert_eq!(line, "00:00:01.000  1 x");
    }
}
