//! What a run tells: its counts, or the smallest session found that splits two
//! sides.

use std::fmt::Write as _;

use super::plan::{Block, Part, Session, Turn};
use super::play::{Counts, Split};
use crate::calls::ANSWER;
use crate::shrink;

/// The lines of a run without a difference.
pub fn passed(counts: &Counts, seed: u64) -> String {
    let refused: u64 = counts.numbers[1..].iter().sum();
    let by_number = counts.numbers.iter().enumerate().skip(1);
    let by_number = by_number.filter(|(_, &n)| n > 0);
    let by_number: Vec<String> = by_number.map(|(k, n)| format!("{k}: {n}")).collect();
    let [wide, narrow] = counts.frames;
    format!(
        "{} sessions, {} frames ({wide} f64, {narrow} f32), {} calls, {refused} of them refused ({}), 0 differences, seed {seed}\n{}",
        counts.sessions,
        wide + narrow,
        counts.calls,
        by_number.join(", "),
        counts.places.line() + &counts.houses.line() + &counts.choices.line()
    )
}

/// The session without the turns, faults, frames and events that can be spared.
pub fn smallest(session: Session, split: &Split, fails: &dyn Fn(&Session) -> bool) -> Session {
    let with = |turns: &[Turn]| Session {
        turns: turns.to_vec(),
        ..session.clone()
    };
    let Some(last) = split.turn else {
        return with(&[]);
    };
    let still = |turns: &[Turn]| fails(&with(turns));
    let turns = shrink::shorter(session.turns[..=last].to_vec(), 0, &still);
    let mut small = with(&turns);
    for at in 0..turns.len() {
        plainer(&mut small, at, fails);
    }
    small
}

/// Make one turn plainer while the session still fails.
fn plainer(session: &mut Session, at: usize, fails: &dyn Fn(&Session) -> bool) {
    let with = |session: &Session, turn: Turn| {
        let mut changed = session.clone();
        changed.turns[at] = turn;
        changed
    };
    while let Some(next) = tries(&session.turns[at])
        .into_iter()
        .map(|turn| with(session, turn))
        .find(|changed| fails(changed))
    {
        *session = next;
    }
}

/// A turn with something less: a fault, frames, events, an aim, another answer's
/// length.
fn tries(turn: &Turn) -> Vec<Turn> {
    let mut tries = Vec::new();
    if turn.answer != ANSWER {
        let answer = ANSWER;
        tries.push(Turn {
            answer,
            ..turn.clone()
        });
    }
    for at in 0..turn.faults.len() {
        let mut fewer = turn.clone();
        fewer.faults.remove(at);
        tries.push(fewer);
    }
    if let Part::Block(block) = &turn.part {
        // Half of the frames away, a quarter, .. one.
        let shorter = (1..64)
            .map(|k| block.frames >> k)
            .take_while(|&away| away > 0);
        let none = (block.frames == 1).then_some(1);
        let shorter = shorter.chain(none).map(|away| block.frames - away);
        let blocks = shorter.map(|frames| block.cut(frames));
        let blocks = blocks.chain(without_event(block)).chain(without_aim(block));
        tries.extend(blocks.map(|block| Turn {
            part: Part::Block(block),
            ..turn.clone()
        }));
    }
    tries
}

/// The block without one of its events.
fn without_event(block: &Block) -> Vec<Block> {
    let without = |at: usize| {
        let mut fewer = block.clone();
        fewer.events.drain(3 * at..3 * at + 3);
        fewer
    };
    (0..block.events.len() / 3).map(without).collect()
}

/// The block without one of its aims.
fn without_aim(block: &Block) -> Vec<Block> {
    let without = |at: usize| {
        let mut fewer = block.clone();
        fewer.aims.remove(at);
        fewer
    };
    (0..block.aims.len()).map(without).collect()
}

/// The lines of a run with a difference.
pub fn differs(number: u64, seed: u64, small: &Session, split: &Split) -> String {
    let mut text = format!("1 difference, seed {seed}, session {number}; smallest form:\n");
    let (setup, cap, house) = (small.setup, small.cap, small.house);
    let _ = writeln!(text, "  {setup:?}, cap {cap:?}, house table: {house}");
    for turn in &small.turns {
        let _ = writeln!(text, "  {turn:?}");
    }
    let after = match split.turn {
        Some(turn) => format!("after call {}", turn + 1),
        None => "after the setup".into(),
    };
    let _ = writeln!(text, "{after}: {}", split.report);
    text
}
