//! Digits carried from slice to slice.

use crate::raw;
use crate::Refusal;

/// Puts `count` digits of `from`, its digit `first` and on, in place of those of `to` at digit `at`
/// and on. Every other digit of `to` stays. The digits may begin and end anywhere in a byte.
///
/// # Errors
///
/// [`Refusal::Digits`] of the first slice that has not so many: `to`, then `from`. `to` is then as it
/// was.
///
/// # Examples
///
/// ```
/// use spritbobbin::copy_digits;
///
/// let mut to = [0xFF, 0xFF];
/// copy_digits(&mut to, 6, &[0b0010_0111], 2, 4)?; // 1001
/// assert_eq!(to, [0b1111_1110, 0b0111_1111]);
/// assert_eq!(copy_digits(&mut to, 13, &[0], 0, 4).unwrap_err().number(), 7);
/// # Ok::<(), spritbobbin::Refusal>(())
/// ```
pub fn copy_digits(
    to: &mut [u8],
    at: usize,
    from: &[u8],
    first: usize,
    count: usize,
) -> Result<(), Refusal> {
    // Sound: each pointer comes with the length of its own slice, and the borrow that may be
    // written is exclusive, so nothing overlaps.
    let number = unsafe {
        raw::spritbobbin_copy_digits(
            to.as_mut_ptr(),
            to.len(),
            at as u64,
            from.as_ptr(),
            from.len(),
            first as u64,
            count as u64,
        )
    };
    // Wider numbers: the sum of two, and eight times a length, need not fit.
    let fits = at as u128 + count as u128 <= 8 * to.len() as u128;
    match number {
        0 => Ok(()),
        7 if fits => Err(Refusal::Digits { first, count, bytes: from.len() }),
        7 => Err(Refusal::Digits { first: at, count, bytes: to.len() }),
        _ => Err(Refusal::Unknown { number }),
    }
}
