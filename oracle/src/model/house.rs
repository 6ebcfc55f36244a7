//! The house tables of document 02, Change 6: the Rust's weights for one lookahead
//! at four rates.

use std::sync::OnceLock;

use crate::mastering::limiter::inside;

/// The lookahead in ms.
pub const LOOKAHEAD: f64 = 1.5;

/// The rates, and the look at each.
pub const PAIRS: [(u32, u64); 4] = [(44_100, 66), (48_000, 72), (96_000, 144), (192_000, 288)];

/// The place in `PAIRS` of a rate and look, if there is a table of them.
pub fn place(rate: u32, look: u64) -> Option<usize> {
    PAIRS.iter().position(|&pair| pair == (rate, look))
}

/// The table of a rate and look, as the running Rust computes it.
pub fn table(rate: u32, look: u64) -> Option<&'static [f64]> {
    static TABLES: OnceLock<[Vec<f64>; 4]> = OnceLock::new();
    let at = place(rate, look)?;
    Some(&TABLES.get_or_init(|| PAIRS.map(own))[at])
}

fn own((rate, look): (u32, u64)) -> Vec<f64> {
    let (derived, weights) = inside::attack(LOOKAHEAD, rate).expect("the Rust takes it");
    assert_eq!(derived as u64, look, "the look is not the Rust's");
    weights
}

#[cfg(test)]
mod tests {
    use super::*;
    use crate::model::weights::accepted;

    #[test]
    fn all_four_pass_the_weights_rule() {
        let tables = PAIRS.map(|(rate, look)| table(rate, look).expect("a table"));
        assert_eq!(tables.map(<[f64]>::len), [55, 61, 133, 277]);
        assert!(tables.into_iter().all(accepted));
    }

    #[test]
    fn a_table_is_that_of_both_rate_and_look() {
        for (rate, look) in PAIRS {
            for (rate, look) in [
                (rate, look - 1),
                (rate, look + 1),
                (rate - 1, look),
                (rate + 1, look),
                (rate ^ 1 << 31, look),
                (rate, look | 1 << 32),
            ] {
                assert_eq!(place(rate, look), None);
                assert_eq!(table(rate, look), None);
            }
        }
        for (at, (rate, _)) in PAIRS.into_iter().enumerate() {
            let looks = PAIRS.map(|(_, look)| place(rate, look));
            let due = [0, 1, 2, 3].map(|other| (other == at).then_some(at));
            assert_eq!(looks, due);
        }
    }
}
