//! Packed bytes and lists of digits: eight digits to a byte, the first in the most
//! significant bit.

/// The first `count` digits of the bytes, or all of them if there are fewer.
pub fn unpack(bytes: &[u8], count: usize) -> Vec<u8> {
    let eight = |byte: u8| (0..8).map(move |k| byte >> (7 - k) & 1);
    bytes.iter().flat_map(|&byte| eight(byte)).take(count).collect()
}

/// The bytes that hold the digits; a last byte that is not full ends in zeros.
pub fn pack(digits: &[u8]) -> Vec<u8> {
    let byte = |eight: &[u8]| (0..8).fold(0, |byte, k| byte * 2 + eight.get(k).unwrap_or(&0));
    digits.chunks(8).map(byte).collect()
}

/// A list of digits read as a number, the last digit worth 1.
pub fn number(digits: &[u8]) -> u64 {
    digits.iter().fold(0, |sum, &digit| sum * 2 + u64::from(digit))
}

/// The last `count` digits of a number written in the binary system.
pub fn of_number(number: u64, count: usize) -> Vec<u8> {
    (0..count).rev().map(|k| (number >> k & 1) as u8).collect()
}
