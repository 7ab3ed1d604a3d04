//! In which bytes digits stand.

use core::ops::Range;

/// Where digits stand that are packed eight to a byte.
#[derive(Clone, Debug, PartialEq, Eq)]
pub struct Span {
    /// The bytes that hold them.
    pub bytes: Range<u64>,
    /// The number of the first of them among the digits of these bytes: 0 to 7.
    pub first: u64,
}

/// Where so many digits stand, from this one on.
///
/// ```
/// use spritbobbin::{span, Span};
///
/// assert_eq!(span(13, 4), Span { bytes: 1..3, first: 5 });
/// assert_eq!(span(16, 0), Span { bytes: 2..2, first: 0 });
/// ```
pub fn span(first: u64, count: u64) -> Span {
    let end = first.saturating_add(count);
    Span { bytes: first / 8..end / 8 + u64::from(end % 8 != 0), first: first % 8 }
}

/// How many bytes so many digits fill whole.
///
/// ```
/// assert_eq!(spritbobbin::whole_bytes(23), 2);
/// ```
pub fn whole_bytes(digits: u64) -> u64 {
    digits / 8
}

/// How many digits stand in so many bytes.
///
/// ```
/// assert_eq!(spritbobbin::digits_in(2), 16);
/// ```
pub fn digits_in(bytes: u64) -> u64 {
    bytes.saturating_mul(8)
}
