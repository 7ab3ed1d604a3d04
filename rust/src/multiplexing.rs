//! Building the frames of a line and taking them apart.

use crate::raw::{self, count};
use crate::{Level, Refusal};

/// What multiplexing sent.
#[derive(Clone, Copy, Debug, PartialEq, Eq, Hash)]
pub struct Sent {
    /// How many digits of each tributary, 1 to 4, are on the line: the first so many of its
    /// quarter.
    pub digits: [usize; 4],
}

/// What reading notes found wrong.
#[derive(Clone, Copy, Debug, PartialEq, Eq, Hash)]
pub struct Noted {
    /// How many alignment digits differ from the word, over all frames.
    pub alignment: usize,
    /// How many control digits of each tributary, 1 to 4, differ from the majority of their own
    /// group, over all frames.
    pub dissent: [usize; 4],
}

/// What extraction took out of a line.
#[derive(Clone, Copy, Debug, PartialEq, Eq, Hash)]
pub struct Extracted {
    /// How many digits of each tributary, 1 to 4, came: the first so many of its quarter.
    pub digits: [usize; 4],
}

/// Builds the frames of a line: writes the whole line from the notes and the buffer's quarters.
///
/// There are as many frames as the line has room for. Digits of a quarter past those sent are not
/// looked at. National digits are sent as 1: each note of levels 2 to 4 must have its
/// [`Level::national_bits`] set. `earlier` is the vote before the first frame, 0 to 15, bit j - 1 for tributary j;
/// levels 2 to 4 do not look at it.
///
/// # Errors
///
/// In this order: [`Refusal::Line`], [`Refusal::Notes`], [`Refusal::Buffer`],
/// [`Refusal::Earlier`], [`Refusal::NoteBits`], [`Refusal::National`]. The line is then as it was.
///
/// # Examples
///
/// ```
/// use spritbobbin::{multiplex, Level};
///
/// # fn main() -> Result<(), spritbobbin::Refusal> {
/// let mut line = [0xFF; 106];
/// let sent = multiplex(Level::Two, 0, &mut line, &[0b10_0000], &[0; 104])?;
/// assert_eq!(sent.digits, [206; 4]);
/// assert_eq!(line[..2], [0xF4, 0x10]); // the word 1111010000, no remote alarm, the national digit
/// assert!(line[2..].iter().all(|byte| *byte == 0));
/// # Ok(())
/// # }
/// ```
///
/// At levels 12 and 14 the vote of each frame and of the one before it:
///
/// ```
/// use spritbobbin::{multiplex, Level};
///
/// # fn main() -> Result<(), spritbobbin::Refusal> {
/// let mut line = [0; 132];
/// // Tributary 1 votes 1 twice and is stuffed; 2 and 3 change their votes; 4 votes 0 twice.
/// let sent = multiplex(Level::Twelve, 0b0011, &mut line, &[0b0101], &[0; 132])?;
/// assert_eq!(sent.digits, [255, 256, 256, 257]);
/// assert_eq!(line[0], 0xE6); // the word 11100110
/// # Ok(())
/// # }
/// ```
pub fn multiplex(
    level: Level,
    earlier: u8,
    line: &mut [u8],
    notes: &[u8],
    buffer: &[u8],
) -> Result<Sent, Refusal> {
    multiplex_by(raw::spritbobbin_multiplex, level, earlier, line, notes, buffer)
}

/// The vote before the next line of a run, at levels 12 and 14: that of the last frame, or the
/// earlier one where the line had none.
///
/// # Examples
///
/// Three frames sent in two lines are the three frames sent in one:
///
/// ```
/// use spritbobbin::{multiplex, vote_after, Level};
///
/// # fn main() -> Result<(), spritbobbin::Refusal> {
/// let (level, earlier, notes, buffer) = (Level::Fourteen, 0, [0x0F, 0x0F, 0x0F], [0; 4 * 202]);
/// let mut whole = [0; 3 * 272];
/// let sent = multiplex(level, earlier, &mut whole, &notes, &buffer)?;
/// assert_eq!(sent.digits, [537 + 536 + 536; 4]);
///
/// let (mut one, mut two) = ([0; 272], [0; 2 * 272]);
/// multiplex(level, earlier, &mut one, &notes[..1], &buffer)?;
/// let earlier = vote_after(earlier, &notes[..1]);
/// let sent = multiplex(level, earlier, &mut two, &notes[1..], &buffer)?;
/// assert_eq!(sent.digits, [536 + 536; 4]); // without it the second frame would send 537
/// assert_eq!([&one[..], &two[..]].concat(), whole);
/// # Ok(())
/// # }
/// ```
pub fn vote_after(earlier: u8, notes: &[u8]) -> u8 {
    notes.last().map_or(earlier, |note| note & 0x0F)
}

/// Builds the line of a multiplexer that acts on its decisions a frame late, for demonstrations and
/// tests: its control digits say each frame's own decision, and every other digit goes by that of the
/// frame before. In frame 0 these are bits 0 to 3 of `earlier`, at every level.
///
/// # Errors
///
/// As of [`multiplex`].
///
/// # Examples
///
/// ```
/// use spritbobbin::{late_multiplex, multiplex, Level};
///
/// # fn main() -> Result<(), spritbobbin::Refusal> {
/// let (mut right, mut late, buffer) = ([0; 212], [0; 212], [0; 4 * 52]);
/// let notes = [0b10_0001, 0b10_0000]; // tributary 1 is stuffed in frame 0
/// let sent = multiplex(Level::Two, 0, &mut right, &notes, &buffer)?;
/// assert_eq!(late_multiplex(Level::Two, 0, &mut late, &notes, &buffer)?, sent);
/// // It says so in frame 0, and does it in frame 1: digit 640 of each.
/// assert_eq!((right[80], right[106 + 80]), (0x80, 0x00));
/// assert_eq!((late[80], late[106 + 80]), (0x00, 0x80));
/// # Ok(())
/// # }
/// ```
pub fn late_multiplex(
    level: Level,
    earlier: u8,
    line: &mut [u8],
    notes: &[u8],
    buffer: &[u8],
) -> Result<Sent, Refusal> {
    multiplex_by(raw::spritbobbin_late_multiplex, level, earlier, line, notes, buffer)
}

/// The same, by one of the two engines.
pub(crate) fn multiplex_by(
    by: raw::Multiplex,
    level: Level,
    earlier: u8,
    line: &mut [u8],
    notes: &[u8],
    buffer: &[u8],
) -> Result<Sent, Refusal> {
    let mut answer = [0; 5];
    // Sound: each pointer comes with the length of its own slice, and borrows that may be written
    // are exclusive, so nothing overlaps.
    let number = unsafe {
        by(
            level.number(),
            u64::from(earlier),
            line.as_mut_ptr(),
            line.len(),
            notes.as_ptr(),
            notes.len(),
            buffer.as_ptr(),
            buffer.len(),
            &mut answer,
        )
    };
    let [a, b, c, d, frame] = answer.map(count);
    let lent = Lent { level, earlier, line: line.len(), notes: notes.len(), buffer: buffer.len() };
    match number {
        0 => Ok(Sent { digits: [a, b, c, d] }),
        _ => Err(lent.refusal(number, frame)),
    }
}

/// Reads the notes of a line, a byte for each frame.
///
/// The line must begin with a frame; a [`Receiver`](crate::Receiver) finds where frames begin.
/// Whether a tributary is stuffed, or at levels 12 and 14 its vote, is the majority of its control
/// digits in the same frame. Wrong alignment digits are counted and never refused.
///
/// # Errors
///
/// In this order: [`Refusal::Line`], [`Refusal::Notes`]. The notes are then as they were.
///
/// # Examples
///
/// ```
/// use spritbobbin::{read_notes, Level};
///
/// # fn main() -> Result<(), spritbobbin::Refusal> {
/// let mut notes = [0];
/// let noted = read_notes(Level::Two, &[0xFF; 106], &mut notes)?;
/// assert_eq!(notes, [0x3F]); // all stuffed, both service digits 1
/// assert_eq!(noted.alignment, 5); // 1111111111 and not 1111010000
/// assert_eq!(noted.dissent, [0; 4]);
/// # Ok(())
/// # }
/// ```
pub fn read_notes(level: Level, line: &[u8], notes: &mut [u8]) -> Result<Noted, Refusal> {
    read_notes_by(raw::spritbobbin_read_notes, level, line, notes)
}

/// The same, by one of the two engines.
pub(crate) fn read_notes_by(
    by: raw::ReadNotes,
    level: Level,
    line: &[u8],
    notes: &mut [u8],
) -> Result<Noted, Refusal> {
    let mut answer = [0; 5];
    // Sound as in multiplexing.
    let number = unsafe {
        by(level.number(), line.as_ptr(), line.len(), notes.as_mut_ptr(), notes.len(), &mut answer)
    };
    let [alignment, dissent @ ..] = answer.map(count);
    let lent = Lent { level, earlier: 0, line: line.len(), notes: notes.len(), buffer: 0 };
    match number {
        0 => Ok(Noted { alignment, dissent }),
        _ => Err(lent.refusal(number, 0)),
    }
}

/// Extracts the tributaries of a line by the notes that are given: those that
/// [`read_notes`] read, or others. Writes the whole buffer, each tributary's digits and then zeros
/// to the end of its quarter. No control digit is looked at. `earlier` is as in [`multiplex`].
///
/// # Errors
///
/// In this order: [`Refusal::Line`], [`Refusal::Notes`], [`Refusal::Buffer`],
/// [`Refusal::Earlier`], [`Refusal::NoteBits`]. The buffer is then as it was. National digits of any
/// kind are accepted.
///
/// # Examples
///
/// ```
/// use spritbobbin::{extract, Level};
///
/// # fn main() -> Result<(), spritbobbin::Refusal> {
/// let mut buffer = [0; 104];
/// // Tributary 1 is stuffed, whatever the line's control digits say.
/// let extracted = extract(Level::Two, 0, &[0xFF; 106], &[0x01], &mut buffer)?;
/// assert_eq!(extracted.digits, [205, 206, 206, 206]);
/// # Ok(())
/// # }
/// ```
pub fn extract(
    level: Level,
    earlier: u8,
    line: &[u8],
    notes: &[u8],
    buffer: &mut [u8],
) -> Result<Extracted, Refusal> {
    extract_by(raw::spritbobbin_extract, level, earlier, line, notes, buffer)
}

/// The same, by one of the two engines.
pub(crate) fn extract_by(
    by: raw::Extract,
    level: Level,
    earlier: u8,
    line: &[u8],
    notes: &[u8],
    buffer: &mut [u8],
) -> Result<Extracted, Refusal> {
    let mut answer = [0; 5];
    // Sound as in multiplexing.
    let number = unsafe {
        by(
            level.number(),
            u64::from(earlier),
            line.as_ptr(),
            line.len(),
            notes.as_ptr(),
            notes.len(),
            buffer.as_mut_ptr(),
            buffer.len(),
            &mut answer,
        )
    };
    let [a, b, c, d, frame] = answer.map(count);
    let lent = Lent { level, earlier, line: line.len(), notes: notes.len(), buffer: buffer.len() };
    match number {
        0 => Ok(Extracted { digits: [a, b, c, d] }),
        _ => Err(lent.refusal(number, frame)),
    }
}

/// What a call was given, slices in bytes, so that its refusal can say what is wrong with it.
struct Lent {
    level: Level,
    earlier: u8,
    line: usize,
    notes: usize,
    buffer: usize,
}

impl Lent {
    fn refusal(self, number: u64, frame: usize) -> Refusal {
        let Lent { level, earlier, line, notes, buffer } = self;
        let frames = line / level.frame_bytes();
        match number {
            1 => Refusal::Level { number: level.number() },
            2 => Refusal::Line { level, bytes: line },
            3 => Refusal::Notes { bytes: notes, frames },
            4 => Refusal::Buffer { level, bytes: buffer, frames },
            // The earlier vote is judged before the notes.
            5 if level.refuses_earlier(earlier) => Refusal::Earlier { level, earlier },
            5 => Refusal::NoteBits { level, frame },
            10 => Refusal::National { level, frame },
            _ => Refusal::Unknown { number },
        }
    }
}
