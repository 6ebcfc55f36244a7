//! The limiter whole: sessions of the Rust, the plain model of document 01 and,
//! where it is linked, the proved code behind its C functions.

mod aims;
mod asked;
mod choices;
mod draw;
mod faults;
mod places;
mod plan;
mod play;
mod record;
mod report;
mod rust;
#[cfg(test)]
mod tests;

pub use draw::{Mode, DAMAGED};
pub use record::write;
#[cfg(test)]
pub use rust::Rust;

use std::sync::atomic::{AtomicU64, Ordering};
use std::thread;

use crate::audio::Types;
use crate::calls::Side;
use draw::Streams;
use plan::Session;
use play::{play, Counts, Split};

/// Sessions that are played at a time.
const THREADS: u64 = 2;

/// What a run depends on.
#[derive(Clone, Copy, Debug, PartialEq, Eq)]
pub struct Settings {
    pub mode: Mode,
    pub types: Types,
    pub sessions: u64,
    pub seed: u64,
}

/// What a run found: what was played, or the first session that splits two
/// sides.
type Outcome = Result<Counts, (u64, Split)>;

/// Play the sessions; answers whether all was the same, and the lines about it.
pub fn run(settings: &Settings, proved: Option<Side>) -> (bool, String) {
    match all(settings, proved) {
        Ok(counts) => (true, report::passed(&counts, settings.seed)),
        Err((number, split)) => {
            let session = drawn(settings, number);
            let fails = |s: &Session| play(s, settings.mode, proved).is_err();
            let small = report::smallest(session, &split, &fails);
            let again = play(&small, settings.mode, proved).err().unwrap_or(split);
            (
                false,
                report::differs(number, settings.seed, &small, &again),
            )
        }
    }
}

/// Session `number` of a run, whatever was played before it.
fn drawn(settings: &Settings, number: u64) -> Session {
    let streams = Streams::new(settings.seed, number);
    draw::session(settings.mode, settings.types, streams)
}

/// All sessions, in turns of the threads.
fn all(settings: &Settings, proved: Option<Side>) -> Outcome {
    let first_split = AtomicU64::new(u64::MAX);
    let work = |turn: u64| share(settings, proved, turn, &first_split);
    let outcomes: Vec<Outcome> = thread::scope(|scope| {
        let work = &work;
        let threads: Vec<_> = (0..THREADS).map(|t| scope.spawn(move || work(t))).collect();
        let join = |thread: thread::ScopedJoinHandle<Outcome>| thread.join().expect("no panic");
        threads.into_iter().map(join).collect()
    });
    let mut counts = Counts::default();
    let mut splits = Vec::new();
    for outcome in outcomes {
        match outcome {
            Ok(played) => counts.add(&played),
            Err(split) => splits.push(split),
        }
    }
    match splits.into_iter().min_by_key(|(number, _)| *number) {
        Some(split) => Err(split),
        None => Ok(counts),
    }
}

/// Every session of one thread, up to the first split that any thread found.
fn share(settings: &Settings, proved: Option<Side>, turn: u64, first_split: &AtomicU64) -> Outcome {
    let mut counts = Counts::default();
    for number in (turn..settings.sessions).step_by(THREADS as usize) {
        if number > first_split.load(Ordering::Relaxed) {
            break;
        }
        match play(&drawn(settings, number), settings.mode, proved) {
            Ok(played) => counts.add(&played),
            Err(split) => {
                first_split.fetch_min(number, Ordering::Relaxed);
                return Err((number, split));
            }
        }
    }
    Ok(counts)
}
