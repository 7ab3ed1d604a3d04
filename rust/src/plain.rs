//! The plain engine: the three calls again, digit by digit.
//!
//! It shares only the level table with the engine behind [`multiplex`](crate::multiplex),
//! [`read_notes`](crate::read_notes) and [`extract`](crate::extract), and gives the same answers,
//! slices and refusals on every input, which is proved. It is slower: it is there for approvals, and
//! to be held beside the other.

use crate::multiplexing::{extract_by, multiplex_by, read_notes_by};
use crate::{raw, Extracted, Level, Noted, Refusal, Sent};

/// Builds the frames of a line, as [`multiplex`](crate::multiplex) does.
///
/// # Errors
///
/// Those of [`multiplex`](crate::multiplex).
///
/// # Examples
///
/// ```
/// use spritbobbin::{multiplex, plain, Level};
///
/// # fn main() -> Result<(), spritbobbin::Refusal> {
/// let (mut quick, mut slow) = ([0; 366], [0; 366]);
/// let sent = multiplex(Level::Four, 0, &mut quick, &[0xFF], &[0x5A; 364])?;
/// assert_eq!(plain::multiplex(Level::Four, 0, &mut slow, &[0xFF], &[0x5A; 364])?, sent);
/// assert_eq!(quick, slow);
/// # Ok(())
/// # }
/// ```
pub fn multiplex(
    level: Level,
    earlier: u8,
    line: &mut [u8],
    notes: &[u8],
    buffer: &[u8],
) -> Result<Sent, Refusal> {
    multiplex_by(raw::spritbobbin_plain_multiplex, level, earlier, line, notes, buffer)
}

/// Reads the notes of a line, as [`read_notes`](crate::read_notes) does.
///
/// # Errors
///
/// Those of [`read_notes`](crate::read_notes).
///
/// # Examples
///
/// ```
/// use spritbobbin::{plain, Level};
///
/// # fn main() -> Result<(), spritbobbin::Refusal> {
/// let mut notes = [0];
/// let noted = plain::read_notes(Level::Two, &[0xFF; 106], &mut notes)?;
/// assert_eq!((notes, noted.alignment), ([0x3F], 5));
/// # Ok(())
/// # }
/// ```
pub fn read_notes(level: Level, line: &[u8], notes: &mut [u8]) -> Result<Noted, Refusal> {
    read_notes_by(raw::spritbobbin_plain_read_notes, level, line, notes)
}

/// Extracts the tributaries of a line by notes, as [`extract`](crate::extract) does.
///
/// # Errors
///
/// Those of [`extract`](crate::extract).
///
/// # Examples
///
/// ```
/// use spritbobbin::{plain, Level};
///
/// # fn main() -> Result<(), spritbobbin::Refusal> {
/// let mut buffer = [0; 104];
/// let extracted = plain::extract(Level::Two, 0, &[0xFF; 106], &[0x01], &mut buffer)?;
/// assert_eq!(extracted.digits, [205, 206, 206, 206]);
/// # Ok(())
/// # }
/// ```
pub fn extract(
    level: Level,
    earlier: u8,
    line: &[u8],
    notes: &[u8],
    buffer: &mut [u8],
) -> Result<Extracted, Refusal> {
    extract_by(raw::spritbobbin_plain_extract, level, earlier, line, notes, buffer)
}
