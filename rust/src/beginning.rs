//! Where a recording begins in what was sent.

use crate::raw::{self, count as counted};
use crate::Refusal;

/// Where a recording begins.
#[derive(Clone, Copy, Debug, PartialEq, Eq, Hash)]
pub struct Beginning {
    /// The number of the digit sent that is the recording's first, counted from 0.
    pub at: usize,
    /// How many of the digits compared differ there.
    pub differing: usize,
}

/// Finds where the first `digits` digits of `read` stand in `sent`: of the `count` numbers from
/// `first` on the one at which they differ least, the lowest of equal ones.
///
/// # Errors
///
/// [`Refusal::Digits`] of `read` where it has not so many digits, else of `sent` where it has fewer than
/// `first + count - 1 + digits`, or where `count` is 0.
///
/// # Examples
///
/// ```
/// use spritbobbin::{begins, Beginning};
///
/// # fn main() -> Result<(), spritbobbin::Refusal> {
/// let sent = [0x00, 0x0B, 0x00, 0x00];
/// // 1011 with a digit wrong, among zeros.
/// assert_eq!(begins(&[0xB4], 6, &sent, 0, 26)?, Beginning { at: 12, differing: 1 });
/// assert_eq!(begins(&[0xB4], 6, &sent, 0, 28).unwrap_err().number(), 7);
/// # Ok(())
/// # }
/// ```
pub fn begins(
    read: &[u8],
    digits: usize,
    sent: &[u8],
    first: usize,
    count: usize,
) -> Result<Beginning, Refusal> {
    let mut answer = [0; 2];
    // Sound: each pointer comes with the length of its own slice, and nothing is written but the
    // answer.
    let number = unsafe {
        raw::spritbobbin_begins(
            read.as_ptr(),
            read.len(),
            digits as u64,
            sent.as_ptr(),
            sent.len(),
            first as u64,
            count as u64,
            &mut answer,
        )
    };
    match number {
        0 => Ok(Beginning { at: counted(answer[0]), differing: counted(answer[1]) }),
        7 if digits as u128 > 8 * read.len() as u128 => {
            Err(Refusal::Digits { first: 0, count: digits, bytes: read.len() })
        }
        7 => Err(Refusal::Digits {
            first,
            count: count.saturating_sub(1).saturating_add(digits),
            bytes: sent.len(),
        }),
        _ => Err(Refusal::Unknown { number }),
    }
}
