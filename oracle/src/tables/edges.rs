//! Changes that bring an accepted table to the edge of one clause, mostly such
//! that the others hold and this one decides.

use super::moves::{frayed, grain, onto_last, onto_middle, put_back, spread, weight};
use crate::model::weights::{middle, part, slack, summed, APART, WHOLE};
use crate::numbers::stepped;
use crate::rng::Rng;

/// Change a table so that a clause is met exactly, or just not.
pub fn aim(table: &mut [f64], rng: &mut Rng) {
    if table.is_empty() {
        return;
    }
    match rng.below(12) {
        0..=2 => pair_apart(table, rng),
        3 => all_apart(table, rng),
        4..=6 => level(table, rng),
        7 => past_the_middle(table, rng),
        8 => swap(table, rng),
        9 => late(table, rng),
        _ => sum_at_limit(table, rng),
    }
    if rng.below(4) == 0 {
        fray(table, rng);
    }
}

/// A limit, or a grain less or more.
fn about(limit: u128, grain: u128, rng: &mut Rng) -> u128 {
    limit + grain * u128::from(rng.below(3)) - grain
}

/// So far above a whole part or below it, as far as there is any.
fn away(whole: u128, by: u128, up: bool) -> u128 {
    if up {
        whole + by
    } else {
        whole.saturating_sub(by)
    }
}

/// A sum at the limit for so many weights, or a grain off it on either side.
pub fn limit(weights: usize, grain: u128, rng: &mut Rng) -> u128 {
    let off = about(slack(weights), grain, rng);
    away(WHOLE, off, rng.below(2) == 0)
}

/// The sum alone at its limit: mirrored places move alike.
fn sum_at_limit(table: &mut [f64], rng: &mut Rng) {
    let last = part(table[table.len() - 1]);
    let target = limit(table.len(), grain(last), rng);
    if rng.below(2) == 0 {
        spread(table, target);
    }
    onto_middle(table, target);
    onto_last(table, target);
}

/// The first place of a mirrored pair, often the innermost or the outermost.
fn pair(places: usize, rng: &mut Rng) -> usize {
    let pairs = (places / 2).max(1);
    match rng.below(4) {
        0 => 0,
        1 => pairs - 1,
        _ => rng.below(pairs as u64) as usize,
    }
}

/// A weight with this whole part, above 0 where that is 0.
fn placed(whole: u128, rng: &mut Rng) -> f64 {
    let plain = weight(whole);
    if whole == 0 || rng.below(2) == 0 {
        frayed(plain, rng)
    } else {
        plain
    }
}

/// A mirrored pair 4,096 apart, or a grain less or more: each of the two moved
/// by half, which keeps the sum, or the later alone, which keeps the rises.
fn pair_apart(table: &mut [f64], rng: &mut Rng) {
    let first = pair(table.len(), rng);
    let later = table.len() - 1 - first;
    let (both, up) = (rng.below(2) == 0, rng.below(2) == 0);
    let start = part(table[first]);
    if both {
        // The higher one is set first, since the lower has the finer grain.
        let top = part(weight(start + APART / 2));
        let by = about(APART, grain(top.saturating_sub(APART)), rng);
        let (high, low) = if up { (later, first) } else { (first, later) };
        table[high] = placed(top, rng);
        table[low] = placed(away(top, by, false), rng);
    } else {
        let by = about(APART, grain(away(start, APART, up)), rng);
        table[later] = placed(away(start, by, up), rng);
    }
    if !summed(table) && rng.below(4) > 0 {
        put_back(table);
    }
}

/// Every pair 4,096 apart, up and down in turn, and at times one of them a grain
/// more.
fn all_apart(table: &mut [f64], rng: &mut Rng) {
    let last = table.len() - 1;
    let wrong = pair(table.len(), rng);
    let more = u128::from(rng.below(3) == 0);
    for first in 0..table.len() / 2 {
        let start = part(table[first]);
        let up = first % 2 == 0 || start < APART;
        let more = more * u128::from(first == wrong);
        let by = APART + more * grain(away(start, APART, up));
        table[last - first] = placed(away(start, by, up), rng);
    }
    put_back(table);
}

/// Two neighbours of the rising half, half of the time the last two, equal or a
/// last place apart; their mirrored places too.
fn level(table: &mut [f64], rng: &mut Rng) {
    let middle = middle(table.len());
    if middle == 0 {
        return;
    }
    let at = match rng.below(2) {
        0 => middle,
        _ => 1 + rng.below(middle as u64) as usize,
    };
    let mirror = table.len() - 1 - at;
    let follow = |table: &mut [f64], step| {
        table[at] = stepped(table[at - 1], step);
        table[mirror] = table[at];
    };
    // Sums are put back while they are equal: the last place comes after that.
    follow(table, 0);
    put_back(table);
    follow(table, rng.below(3) as i64 - 1);
}

/// Two neighbours past the middle, equal or a last place apart, where nothing has
/// to rise or fall.
fn past_the_middle(table: &mut [f64], rng: &mut Rng) {
    let (last, middle) = (table.len() - 1, middle(table.len()));
    let others = (last - middle) as u64;
    if others == 0 {
        return;
    }
    let at = middle + 1 + (rng.below(2) * rng.below(others)) as usize;
    table[at] = stepped(table[at - 1], rng.below(3) as i64 - 1);
    // The mirrored one comes along, still below the next.
    let mirror = last - at;
    if mirror < middle {
        table[mirror] = stepped(table[mirror + 1], -1);
    }
    put_back(table);
}

/// Two neighbours swapped, mostly with those at the mirrored places.
fn swap(table: &mut [f64], rng: &mut Rng) {
    let last = table.len() - 1;
    if last == 0 {
        return;
    }
    let at = rng.below(last as u64) as usize;
    table.swap(at, at + 1);
    if rng.below(4) > 0 {
        table.swap(last - at, last - at - 1);
    }
}

/// A table that sums correctly and rises late: all the way to its last place, or
/// a few places late, or mirrored with a level start.
fn late(table: &mut [f64], rng: &mut Rng) {
    let last = table.len() - 1;
    match rng.below(3) {
        0 => {
            table.sort_by(f64::total_cmp);
            for at in 1..=last {
                table[at] = table[at].max(stepped(table[at - 1], 1));
            }
        }
        1 => {
            let by = rng.below(1 + last as u64 / 4) as usize;
            table.rotate_right(by);
        }
        _ => {
            let middle = middle(table.len()).max(1);
            let level = 1 + rng.below(middle as u64) as usize;
            for at in 1..=level.min(last) {
                table[at] = table[0];
                table[last - at] = table[last];
            }
            put_back(table);
        }
    }
}

/// Other weights with the same whole parts, past the middle.
fn fray(table: &mut [f64], rng: &mut Rng) {
    let middle = middle(table.len());
    for weight in table.iter_mut().skip(middle + 1) {
        if rng.below(2) == 0 {
            *weight = frayed(*weight, rng);
        }
    }
}
