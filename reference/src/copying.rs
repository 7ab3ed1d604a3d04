//! Digits copied from slice to slice.

use crate::digits::{pack, unpack};

/// The refusal of a copy. It takes lengths and not slices, so that it also answers for lengths that no
/// memory holds.
pub fn copy_refusal(to_bytes: u64, at: u64, from_bytes: u64, first: u64, count: u64) -> u64 {
    // Wider numbers: neither a sum of two nor eight times a length need fit in 64 bits.
    let has = |bytes: u64, at: u64| u128::from(at) + u128::from(count) <= 8 * u128::from(bytes);
    if has(to_bytes, at) && has(from_bytes, first) {
        0
    } else {
        7
    }
}

/// Puts the digits of `from` from `first` on over those of `to` from `at` on, so many.
pub fn copy_digits(to: &mut [u8], at: u64, from: &[u8], first: u64, count: u64) -> u64 {
    let refusal = copy_refusal(to.len() as u64, at, from.len() as u64, first, count);
    if refusal == 0 {
        let (at, first, count) = (at as usize, first as usize, count as usize);
        let mut digits = unpack(to, 8 * to.len());
        digits[at..at + count].copy_from_slice(&unpack(from, 8 * from.len())[first..first + count]);
        to.copy_from_slice(&pack(&digits));
    }
    refusal
}
