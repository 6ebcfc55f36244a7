//! The tables that are drawn are what they should be.

use super::aim;
use super::damaged::{own, Tables};
use super::tally::{alone, expected, Tally, CLAUSES};
use crate::model::weights::{accepted, middle, part, slack, sum, APART, WHOLE};
use crate::numbers::stepped;
use crate::rng::Rng;

fn drawn(count: usize) -> impl Iterator<Item = Vec<f64>> {
    let (tables, mut rng) = (Tables::new().expect("good looks"), Rng::new(1));
    (0..count).map(move |_| tables.damaged(&mut rng))
}

#[test]
fn both_verdicts_are_common_and_each_clause_decides_alone() {
    let (mut tally, mut longest) = (Tally::default(), 0);
    for table in drawn(8000) {
        tally.met(&table);
        longest += u32::from(table.len() == 4096 && expected(&table));
    }
    assert!((2400..5600).contains(&tally.accepted), "{tally:?}");
    assert_eq!(tally.accepted + tally.refused, 8000);
    let [length, clauses @ ..] = tally.alone;
    assert!(length > 2 && longest > 2, "{longest}, {tally:?}");
    assert!(clauses.iter().all(|&n| n > 150), "{tally:?}");
    assert!(tally.at_limit.iter().all(|&n| n > 150), "{tally:?}");
}

/// How far the sum is past its limit, the low one or the high one.
fn past_limit(table: &[f64], low: bool) -> i128 {
    let off = sum(table) as i128 - WHOLE as i128;
    let off = if low { -off } else { off };
    off - slack(table.len()) as i128
}

/// Whether a place's part is so far above that of its mirrored place: the first of
/// the two above the later, or the other way.
fn above(table: &[f64], by: u128, first: bool) -> bool {
    let mut pairs = table.iter().zip(table.iter().rev()).take(table.len() / 2);
    pairs.any(|(&p, &q)| match first {
        true => part(p) == part(q) + by,
        false => part(q) == part(p) + by,
    })
}

/// Whether the middle two of an even number are too far apart.
fn inner(table: &[f64]) -> bool {
    let (at, odd) = (middle(table.len()), table.len() % 2 == 1);
    !odd && part(table[at]).abs_diff(part(table[at + 1])) > APART
}

/// Whether the middle weight of an odd number, or of an even one, is so many last
/// places above the one before.
fn up(table: &[f64], odd: bool, step: i64) -> bool {
    let at = middle(table.len());
    at > 0 && (table.len() % 2 == 1) == odd && table[at] == stepped(table[at - 1], step)
}

/// The same of the weight after the middle one and the middle one.
fn then(table: &[f64], odd: bool, step: i64) -> bool {
    let at = middle(table.len());
    at > 0 && (table.len() % 2 == 1) == odd && table[at + 1] == stepped(table[at], step)
}

/// Two equal neighbours before the middle.
fn equal(table: &[f64]) -> bool {
    (1..middle(table.len())).any(|i| table[i - 1] == table[i])
}

/// Two neighbours of the rising half whose whole parts are the same one: the
/// weights rise, or fall.
fn within(table: &[f64], rise: bool) -> bool {
    (1..=middle(table.len())).any(|i| {
        let (p, q) = (table[i - 1], table[i]);
        part(p) == part(q) && if rise { p < q } else { p > q }
    })
}

/// What is to be found in a table.
type Found = fn(&[f64]) -> bool;

const ACCEPTED: [(&str, Found); 19] = [
    ("the smallest float", |t| t.contains(&f64::from_bits(1))),
    ("a 1.0", |t| t.len() > 1 && t.contains(&1.0)),
    ("one weight", |t| t.len() == 1),
    ("two weights", |t| t.len() == 2),
    ("the least sum", |t| past_limit(t, true) == 0),
    ("the largest sum", |t| past_limit(t, false) == 0),
    ("first 4095 above", |t| above(t, 4095, true)),
    ("later 4095 above", |t| above(t, 4095, false)),
    ("first 4096 above", |t| above(t, 4096, true)),
    ("later 4096 above", |t| above(t, 4096, false)),
    ("a last place up, odd", |t| up(t, true, 1)),
    ("a last place up, even", |t| up(t, false, 1)),
    ("up within a part", |t| within(t, true)),
    ("then a last place down, odd", |t| then(t, true, -1)),
    ("then a last place down, even", |t| then(t, false, -1)),
    ("then the same, odd", |t| then(t, true, 0)),
    ("then the same, even", |t| then(t, false, 0)),
    ("then a last place up, odd", |t| then(t, true, 1)),
    ("then a last place up, even", |t| then(t, false, 1)),
];

/// Refused by one clause alone, by its name.
const REFUSED: [(&str, &str, Found); 15] = [
    ("range", "a zero", |t| t.contains(&0.0)),
    ("range", "past 1.0", |t| t.contains(&stepped(1.0, 1))),
    ("sum", "one below", |t| past_limit(t, true) == 1),
    ("sum", "one above", |t| past_limit(t, false) == 1),
    ("sum", "come round", |t| sum(t) > 1 << 64),
    ("mirrored", "first 4097 above", |t| above(t, 4097, true)),
    ("mirrored", "later 4097 above", |t| above(t, 4097, false)),
    ("mirrored", "the middle two", inner),
    ("mirrored", "two weights", |t| t.len() == 2),
    ("rise", "equal, odd", |t| up(t, true, 0)),
    ("rise", "equal, even", |t| up(t, false, 0)),
    ("rise", "a last place down, odd", |t| up(t, true, -1)),
    ("rise", "a last place down, even", |t| up(t, false, -1)),
    ("rise", "equal before the middle", equal),
    ("rise", "down within a part", |t| within(t, false)),
];

#[test]
fn every_edge_is_met_on_both_sides() {
    let (mut taken, mut refused) = ([0; ACCEPTED.len()], [0; REFUSED.len()]);
    for table in drawn(8000) {
        if expected(&table) {
            for (count, (_, found)) in taken.iter_mut().zip(ACCEPTED) {
                *count += u32::from(found(&table));
            }
        } else if let Some(at) = alone(&table) {
            for (count, (clause, _, found)) in refused.iter_mut().zip(REFUSED) {
                *count += u32::from(CLAUSES[at].0 == clause && found(&table));
            }
        }
    }
    for ((name, _), count) in ACCEPTED.iter().zip(taken) {
        assert!(count > 20, "accepted, {name}: {count}");
    }
    for ((clause, name, _), count) in REFUSED.iter().zip(refused) {
        assert!(count > 20, "refused, {clause} alone, {name}: {count}");
    }
}

/// The Rust's own tables, aimed: so the whole limiter is handed them.
#[test]
fn aimed_tables_keep_their_length_and_have_both_verdicts() {
    let mut rng = Rng::new(2);
    for look in 14..80 {
        let table = own(look).expect("a good look");
        let mut taken = 0;
        for _ in 0..100 {
            let mut other = table.clone();
            aim(&mut other, &mut rng);
            assert_eq!(other.len(), table.len());
            taken += u32::from(accepted(&other));
        }
        assert!((10..90).contains(&taken), "{look}: {taken}");
    }
}
