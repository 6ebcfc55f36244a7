//! The floor keeper: "in order", and one step on a plain list of entries.

#[cfg(any(test, feature = "probe"))]
mod alone;

#[cfg(feature = "probe")]
pub use alone::Told;

use crate::dsp::sanitize::finite_or_zero;

/// The most frames since a reset.
pub const MOST_FRAMES: u64 = 1 << 40;

/// A keeper's state, which is look, head, entries kept and frames taken, and
/// its lent stores.
#[derive(Clone, Debug)]
pub struct Keeping {
    pub state: [u64; 4],
    pub marks: Vec<u64>,
    pub minima: Vec<f64>,
}

/// What a step leaves at the front: the floor, and the entries that it dropped
/// and kept.
#[derive(Clone, Copy, Debug, PartialEq)]
pub struct Front {
    pub floor: f64,
    pub dropped: u64,
    pub kept: u64,
}

impl Keeping {
    /// Document 01's clauses on the keeper, one after the other; the stores fit.
    pub fn in_order(&self) -> bool {
        let [look, head, len, frame] = self.state;
        let counts =
            frame <= MOST_FRAMES && len <= look + 1 && (len == 0) == (frame == 0) && head <= look;
        if !counts {
            return false;
        }
        let entries = self.entries();
        let pairs = || entries.windows(2);
        let (Some(first), Some(last)) = (entries.first(), entries.last()) else {
            return true;
        };
        pairs().all(|p| p[0].0 < p[1].0)
            && u128::from(last.0) + 1 == u128::from(frame)
            && u128::from(first.0) + u128::from(look) + 1 >= u128::from(frame)
            && pairs().all(|p| p[0].1 < p[1].1)
            && entries.iter().all(|e| (0.0..=1.0).contains(&e.1))
    }

    /// The kept entries, mark and minimum, the front first.
    fn entries(&self) -> Vec<(u64, f64)> {
        let [_, head, len, _] = self.state;
        let place = |i: u64| ((head + i) % self.marks.len() as u64) as usize;
        let places = (0..len).map(place);
        places.map(|p| (self.marks[p], self.minima[p])).collect()
    }

    /// A step of a keeper in order.
    pub fn stepped(&mut self, gain: f64) -> Front {
        let [look, head, len, frame] = self.state;
        let gain = finite_or_zero(gain).clamp(0.0, 1.0);
        let mut entries = self.entries();
        while entries.last().is_some_and(|e| e.1 >= gain) {
            entries.pop();
        }
        let stale = entries.iter().take_while(|e| frame - e.0 > look).count();
        entries.drain(..stale);
        entries.push((frame, gain));
        let kept = entries.len() as u64;
        let head = (head + stale as u64) % (look + 1);
        let place = ((head + kept - 1) % (look + 1)) as usize;
        self.marks[place] = frame;
        self.minima[place] = gain;
        self.state = [look, head, kept, frame + 1];
        Front {
            floor: entries[0].1,
            dropped: len + 1 - kept,
            kept,
        }
    }
}
