//! Makes the words of a failing case plain.

use super::shorter;

/// How far the float of these bits is from a plain one; smaller is plainer.
fn weight(bits: u64) -> (u32, u32, u64, u64) {
    let mantissa = bits << 12;
    let exponent = (bits >> 52) & 0x7ff;
    let class = match (exponent, mantissa) {
        (0, 0) => 0,
        (0, _) => 2,
        (0x7ff, 0) => 3,
        (0x7ff, _) => 4,
        _ => 1,
    };
    let length = 64 - mantissa.trailing_zeros().min(64);
    (class, length, exponent.abs_diff(1023), bits >> 63)
}

/// Plainer floats to try in place of these bits, plainest first.
fn plainer(bits: u64) -> Vec<u64> {
    let sign = bits & (1 << 63);
    let exponent = (bits >> 52) & 0x7ff;
    let with = |e: u64| (bits & !(0x7ff << 52)) | (e << 52);
    let mut tries = vec![0, 1.0f64.to_bits(), sign, sign | 1.0f64.to_bits()];
    tries.push(bits & !(1 << 63));
    // Move the exponent toward that of 1.0: all the way, half, one step.
    tries.extend([with(1023), with((exponent + 1023) / 2)]);
    tries.push(with(if exponent < 1023 {
        exponent + 1
    } else {
        exponent - 1
    }));
    // Cut the mantissa, the longest cut first.
    tries.extend((1..=52).rev().map(|low| bits >> low << low));
    tries.retain(|&t| weight(t) < weight(bits));
    tries
}

/// Make each word of a failing case as plain as it gets while it still fails.
pub fn words(case: Vec<u64>, fails: &dyn Fn(&[u64]) -> bool) -> Vec<u64> {
    let next = pass(case.clone(), fails);
    if next == case {
        next
    } else {
        // A plainer word may let an earlier one become plainer too.
        words(next, fails)
    }
}

/// Go over the words once.
fn pass(mut case: Vec<u64>, fails: &dyn Fn(&[u64]) -> bool) -> Vec<u64> {
    let mut at = 0;
    while at < case.len() {
        let old = case[at];
        let better = plainer(old).into_iter().find(|&t| {
            case[at] = t;
            fails(&case)
        });
        // A found word may be made plainer still; else go on to the next.
        case[at] = better.unwrap_or(old);
        at += usize::from(better.is_none());
    }
    case
}

/// Leave out as many words after the first `fixed` as can be spared, then
/// make those that are left plain.
pub fn list(case: Vec<u64>, fixed: usize, fails: &dyn Fn(&[u64]) -> bool) -> Vec<u64> {
    words(shorter(case, fixed, fails), fails)
}

#[cfg(test)]
mod tests {
    use super::*;

    #[test]
    fn a_word_becomes_the_plainest_that_still_fails() {
        let above = |w: &[u64]| f64::from_bits(w[0]) > 2.5;
        let found = words(vec![12345.678f64.to_bits()], &above);
        assert_eq!(f64::from_bits(found[0]), 3.0);
        let negative = |w: &[u64]| f64::from_bits(w[0]).is_sign_negative();
        let found = words(vec![(-1e-300f64).to_bits()], &negative);
        assert_eq!(found, [1 << 63]);
    }

    #[test]
    fn a_list_keeps_its_fixed_words_and_what_it_needs() {
        let needs = |w: &[u64]| w[1..].iter().filter(|&&x| f64::from_bits(x) >= 2.0).count() >= 2;
        let long: Vec<u64> = (0..40).map(|i| (f64::from(i) + 0.3).to_bits()).collect();
        let found = list(long, 1, &needs);
        let two = 2.0f64.to_bits();
        assert_eq!(found, [0, two, two]);
    }
}
