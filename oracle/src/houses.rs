//! Rates and looks that have a house table, and those beside them.

use crate::model::house::PAIRS;
use crate::rng::Rng;

/// A rate and look: one in four has a table, most others miss one by little.
pub fn pair(rng: &mut Rng) -> (u32, u64) {
    let (rate, look) = rng.pick(&PAIRS);
    let by = rng.pick(&[1, 1, 2, 11, 48]) * rng.pick(&[1, -1]);
    match rng.below(8) {
        0 | 1 => (rate, look),
        2 => (rate, rng.pick(&PAIRS).1),
        3 => (rate, look.wrapping_add_signed(by)),
        4 => (rate.wrapping_add_signed(by as i32), look),
        // All but a bit the same: above the lower half of a word too.
        5 => (rate, look ^ 1 << rng.below(64)),
        6 => (rate ^ 1 << rng.below(32), look),
        _ => {
            let rate = (rng.word() >> rng.below(64)) as u32;
            (rate, rng.word() >> rng.below(64))
        }
    }
}

#[cfg(test)]
mod tests {
    use super::*;
    use crate::model::house::place;

    #[test]
    fn every_table_is_met_and_missed_by_one() {
        let mut rng = Rng::new(3);
        let pairs: Vec<_> = (0..4_000).map(|_| pair(&mut rng)).collect();
        let met = |due: (u32, u64)| pairs.iter().filter(|&&p| p == due).count();
        for (rate, look) in PAIRS {
            assert!(met((rate, look)) > 200);
            for by in [1, -1] {
                assert!(met((rate, look.wrapping_add_signed(by))) > 10);
                assert!(met((rate.wrapping_add_signed(by as i32), look)) > 10);
            }
            assert!(PAIRS.iter().all(|p| met((rate, p.1)) > 10));
        }
        let wide =
            |&&(rate, look): &&(u32, u64)| place(rate, look as u32 as u64) != place(rate, look);
        assert!(pairs.iter().filter(wide).count() > 10);
    }
}
