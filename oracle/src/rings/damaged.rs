//! Damaged keepers, aimed at each clause of the rule.

use super::ordered;
use crate::model::keeper::{Keeping, MOST_FRAMES};
use crate::numbers::{any, near};
use crate::rng::Rng;

/// A keeper in order with random entries, as no history may have left it, and
/// one time in two with one thing changed.
pub fn forged(rng: &mut Rng) -> Keeping {
    let mut keeping = ordered(look(rng), rng);
    if rng.below(2) == 0 {
        damage(&mut keeping, rng);
    }
    keeping
}

fn look(rng: &mut Rng) -> u64 {
    match rng.below(8) {
        0 => 11 + rng.below(60),
        _ => 11 + rng.below(3),
    }
}

/// A gain for a step, often one that a kept entry has or one beside it.
pub fn gain(keeping: &Keeping, rng: &mut Rng) -> f64 {
    let place = rng.below(keeping.minima.len() as u64) as usize;
    match rng.below(5) {
        0 => any(rng),
        1 => keeping.minima[place],
        2 => near(rng, keeping.minima[place], 1),
        3 => rng.pick(&[0.0, -0.0, 1.0]),
        _ => rng.unit(),
    }
}

/// Change one thing.
fn damage(keeping: &mut Keeping, rng: &mut Rng) {
    let [look, head, len, _] = keeping.state;
    // A place of the ring, where there is one.
    let place = ((head + rng.below(len.max(1))) % (look + 1)) as usize;
    let next = (place + 1) % (look as usize + 1);
    match rng.below(8) {
        0 | 1 => {
            let field = &mut keeping.state[rng.below(4) as usize];
            *field = beside(*field, rng);
        }
        2 => keeping.marks[place] = beside(keeping.marks[place], rng),
        3 => keeping.minima[place] = any(rng),
        4 => {
            let minimum = rng.pick(&[keeping.minima[next], 0.0, -0.0, 1.0]);
            keeping.minima[place] = near(rng, minimum, 1);
        }
        5 => keeping.marks.swap(place, next),
        6 => keeping.minima.swap(place, next),
        _ => resize(keeping, rng),
    }
}

/// A word next to `word`, or some other one.
fn beside(word: u64, rng: &mut Rng) -> u64 {
    match rng.below(6) {
        0 | 1 => word.wrapping_add(1),
        2 | 3 => word.wrapping_sub(1),
        4 => rng.pick(&[0, 1, 10, 4096, 4097, MOST_FRAMES, u64::MAX]),
        _ => rng.word() >> rng.below(64),
    }
}

/// One place more or less in a store, or in both and in the look.
fn resize(keeping: &mut Keeping, rng: &mut Rng) {
    let more = rng.below(2) == 0;
    let which = rng.below(3);
    if which != 1 {
        let places = keeping.marks.len() + 2 * usize::from(more) - 1;
        keeping.marks.resize(places, 0);
    }
    if which != 0 {
        let places = keeping.minima.len() + 2 * usize::from(more) - 1;
        keeping.minima.resize(places, 0.5);
    }
    if which == 2 {
        keeping.state[0] = keeping.marks.len() as u64 - 1;
    }
}

#[cfg(test)]
mod tests {
    use super::*;

    #[test]
    fn keepers_are_in_order_before_they_are_damaged() {
        let mut rng = Rng::new(3);
        for _ in 0..5_000 {
            let number = ordered(look(&mut rng), &mut rng).step(0.5).number;
            assert!(number == 0 || number == 22, "{number}");
        }
    }

    #[test]
    fn every_answer_is_common() {
        let mut rng = Rng::new(1);
        let mut met = [0; 23];
        for _ in 0..20_000 {
            let mut keeping = forged(&mut rng);
            let gain = gain(&keeping, &mut rng);
            met[keeping.step(gain).number as usize] += 1;
        }
        for number in [0, 12, 16, 19, 22] {
            assert!(met[number] > 200, "{number}: {met:?}");
        }
    }
}
