//! Numbers for readers.

/// A factor of full scale in dB; silence has none.
#[must_use]
pub fn db(factor: f64) -> Option<f64> {
    (factor > 0.0).then(|| 20.0 * factor.log10())
}

/// A level in dB with two digits.
#[must_use]
pub fn level(factor: f64) -> String {
    match db(factor) {
        // no "-0.00"
        Some(db) => format!("{:+.2}", db + 0.0).replace("-0.00", "+0.00"),
        None => "-inf".into(),
    }
}

/// hh:mm:ss.mmm of a frame.
#[must_use]
pub fn clock(frame: u64, rate: u32) -> String {
    let ms = u128::from(frame) * 1000 / u128::from(rate.max(1));
    let (s, ms) = (ms / 1000, ms % 1000);
    format!("{:02}:{:02}:{:02}.{ms:03}", s / 3600, s / 60 % 60, s % 60)
}

/// 1234567 as 1,234,567.
#[must_use]
pub fn grouped(n: u64) -> String {
    let digits = n.to_string();
    let mut text = String::new();
    for (i, digit) in digits.chars().enumerate() {
        if i > 0 && (digits.len() - i).is_multiple_of(3) {
            text.push(',');
        }
        text.push(digit);
    }
    text
}

#[cfg(test)]
mod tests {
    use super::*;

    #[test]
    fn numbers_read_well() {
        assert_eq!(level(0.5), "-6.02");
        assert_eq!(level(1.0), "+0.00");
        assert_eq!(level(0.999_99), "+0.00");
        assert_eq!(level(0.0), "-inf");
        assert_eq!(clock(48_000 * 3_725 + 24, 48_000), "01:02:05.000");
        assert_eq!(clock(48_000 * 3_725 + 48, 48_000), "01:02:05.001");
        assert_eq!(grouped(7), "7");
        assert_eq!(grouped(1_234_567), "1,234,567");
    }
}
