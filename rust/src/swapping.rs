//! One tributary of a line written anew.

use crate::raw::{self, count};
use crate::{Level, Refusal};

/// Swaps tributary 1, 2, 3 or 4 of a line in place and gives the digits that it has now: the first so
/// many of `digits`. Its control, justification and ordinary places are rewritten, negative ones too,
/// and no other digit of the line is touched.
///
/// `digits` is one tributary's, of at least [`Level::quarter_bytes`]. Of each note only the
/// tributary's own bit is looked at, and of `earlier` too, which levels 2 to 4 do not look at.
///
/// A line that [`multiplex`](crate::multiplex) made becomes what it makes of the new four. Two
/// tributaries may be swapped in either order; for one tributary twice the last call stands.
///
/// # Errors
///
/// In this order: [`Refusal::Tributary`], [`Refusal::Line`], [`Refusal::Notes`],
/// [`Refusal::OneBuffer`], [`Refusal::Earlier`]. The line is then as it was.
///
/// # Examples
///
/// ```
/// use spritbobbin::{multiplex, swap, Level};
///
/// # fn main() -> Result<(), spritbobbin::Refusal> {
/// let (mut line, mut anew) = ([0; 106], [0; 106]);
/// let mut buffer = [0; 104];
/// multiplex(Level::Two, 0, &mut line, &[0b10_0000], &buffer)?;
///
/// // Tributary 2 is of ones, and stuffed.
/// assert_eq!(swap(Level::Two, 0, 2, &mut line, &[0b0010], &[0xFF; 26])?, 205);
///
/// buffer[26..52].fill(0xFF);
/// multiplex(Level::Two, 0, &mut anew, &[0b10_0010], &buffer)?;
/// assert_eq!(line, anew);
/// # Ok(())
/// # }
/// ```
pub fn swap(
    level: Level,
    earlier: u8,
    tributary: usize,
    line: &mut [u8],
    notes: &[u8],
    digits: &[u8],
) -> Result<usize, Refusal> {
    let mut answer = [0];
    // Sound: each pointer comes with the length of its own slice, and the borrow that may be
    // written is exclusive, so nothing overlaps.
    let number = unsafe {
        raw::spritbobbin_swap(
            level.number(),
            u64::from(earlier),
            tributary as u64,
            line.as_mut_ptr(),
            line.len(),
            notes.as_ptr(),
            notes.len(),
            digits.as_ptr(),
            digits.len(),
            &mut answer,
        )
    };
    let frames = line.len() / level.frame_bytes();
    match number {
        0 => Ok(count(answer[0])),
        1 => Err(Refusal::Level { number: level.number() }),
        12 => Err(Refusal::Tributary { number: tributary }),
        2 => Err(Refusal::Line { level, bytes: line.len() }),
        3 => Err(Refusal::Notes { bytes: notes.len(), frames }),
        4 => Err(Refusal::OneBuffer { level, bytes: digits.len(), frames }),
        5 => Err(Refusal::Earlier { level, earlier }),
        _ => Err(Refusal::Unknown { number }),
    }
}
