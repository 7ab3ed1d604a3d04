//! Times of a recording at a line's nominal rate: every command says them here, rounded to the microsecond, so that one digit has
//! one time wherever it is named.

/// When a digit comes, or how long so many digits take, in microseconds: the nearest.
pub fn microseconds(kilobits: u32, digits: u64) -> u64 {
    let rate = u128::from(kilobits.max(1));
    let time = u128::from(digits).saturating_mul(1000).saturating_add(rate / 2) / rate;
    u64::try_from(time).unwrap_or(u64::MAX)
}

/// The same as it is said: in milliseconds, from a second on in seconds, and from a minute on in minutes and seconds.
pub fn time(kilobits: u32, digits: u64) -> String {
    let all = microseconds(kilobits, digits);
    let (seconds, rest) = (all / 1_000_000, all % 1_000_000);
    match seconds {
        0 => format!("{}.{:03} ms", all / 1000, all % 1000),
        1..=59 => format!("{seconds}.{rest:06} s"),
        _ => format!("{} min {}.{rest:06} s", seconds / 60, seconds % 60),
    }
}

#[cfg(test)]
mod tests {
    use super::*;

    #[test]
    fn times_are_rounded() {
        assert_eq!(time(8448, 0), "0.000 ms");
        // 0.32670 ms, and half a microsecond: 10.0005 ms.
        assert_eq!(time(8448, 2760), "0.327 ms");
        assert_eq!(time(2000, 20_001), "10.001 ms");
        assert_eq!(time(8448, 8_448_000 - 1), "1.000000 s");
        assert_eq!(time(8448, 8_448_000 / 2), "500.000 ms");
        assert_eq!(time(8448, 60 * 8_448_000 - 8), "59.999999 s");
        assert_eq!(time(8448, 61 * 8_448_000), "1 min 1.000000 s");
        assert_eq!(microseconds(0, u64::MAX), u64::MAX);
    }
}
