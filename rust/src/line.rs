//! The digits of a line, one by one.

use core::iter::FusedIterator;

use crate::raw;

/// The digit at a place of a line, 0 or 1; nothing where the line has ended, which is past its
/// last digit, and everywhere for a line over 65,536 bytes.
///
/// ```
/// use spritbobbin::line_digit;
///
/// assert_eq!(line_digit(&[0b0100_0000], 1), Some(1));
/// assert_eq!(line_digit(&[0b0100_0000], 7), Some(0));
/// assert_eq!(line_digit(&[0b0100_0000], 8), None);
/// ```
pub fn line_digit(line: &[u8], place: u64) -> Option<u8> {
    // Sound: the pointer comes with its slice's length, and nothing is written.
    match unsafe { raw::spritbobbin_line_digit(line.as_ptr(), line.len(), place) } {
        0 => Some(0),
        1 => Some(1),
        _ => None,
    }
}

/// The digits of a line from its first on.
///
/// ```
/// use spritbobbin::digits;
///
/// assert!(digits(&[0xF4, 0x00]).take(10).eq([1, 1, 1, 1, 0, 1, 0, 0, 0, 0]));
/// assert_eq!(digits(&[0xFF; 65_537]).next(), None); // over 65,536 bytes: ended
/// ```
pub fn digits(line: &[u8]) -> Digits<'_> {
    Digits::from_place(line, 0)
}

/// A walk over the digits of a line: see [`digits`].
#[derive(Clone, Debug)]
pub struct Digits<'a> {
    line: &'a [u8],
    place: u64,
}

impl<'a> Digits<'a> {
    /// The digits from a place on, which may be past the end.
    ///
    /// ```
    /// use spritbobbin::Digits;
    ///
    /// let mut digits = Digits::from_place(&[0b0000_0010], 6);
    /// assert_eq!(digits.next(), Some(1));
    /// assert_eq!(digits.place(), 7);
    /// assert_eq!(Digits::from_place(&[0xFF], u64::MAX).next(), None);
    /// ```
    pub fn from_place(line: &'a [u8], place: u64) -> Digits<'a> {
        Digits { line, place }
    }

    /// The place of the next digit.
    pub fn place(&self) -> u64 {
        self.place
    }
}

impl Iterator for Digits<'_> {
    type Item = u8;

    /// Gives the next digit and moves on by one; at the end nothing moves.
    fn next(&mut self) -> Option<u8> {
        let digit = line_digit(self.line, self.place)?;
        self.place += 1;
        Some(digit)
    }
}

impl FusedIterator for Digits<'_> {}
