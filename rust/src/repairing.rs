//! Worn lines repaired.

use crate::raw::{self, count};
use crate::{capture_bytes, read_capture, Level, Refusal};

/// How many digits a repair changed.
#[derive(Clone, Copy, Debug, Default, PartialEq, Eq, Hash)]
pub struct Repaired {
    /// Alignment digits.
    pub word: usize,
    /// Control digits of tributaries 1 to 4.
    pub control: [usize; 4],
    /// Stuffing digits of tributaries 1 to 4.
    pub stuffing: [usize; 4],
    /// National digits, where they are repaired.
    pub national: usize,
}

impl Repaired {
    /// All together.
    pub fn all(&self) -> usize {
        let of_four = |four: [usize; 4]| four.iter().sum::<usize>();
        self.word + of_four(self.control) + of_four(self.stuffing) + self.national
    }
}

/// Repairs a worn line in place: sets alignment digits to the word, the control digits of each group
/// to their majority, and stuffing digits to 1, unused negative places among them. Service digits and
/// the digits of tributaries stay; but where `national` says so, the national digits of levels 2 to 4
/// are set to 1 too. At levels 12 and 14 it does nothing.
///
/// What [`read_notes`](crate::read_notes) and, with the same earlier vote,
/// [`extract`](crate::extract) read from the result is what they read from the line before, but for the
/// national digits that were asked for. A second repair changes nothing. A line that
/// [`multiplex`](crate::multiplex) made with this earlier vote comes back exactly as it was sent, if
/// nothing was damaged but alignment and stuffing digits, national ones where they are repaired, and
/// fewer than half of any control group.
///
/// # Errors
///
/// In this order: [`Refusal::Line`], [`Refusal::Earlier`]. The line is then as it was.
///
/// # Examples
///
/// ```
/// use spritbobbin::{multiplex, repair, Level};
///
/// # fn main() -> Result<(), spritbobbin::Refusal> {
/// let mut line = [0; 106];
/// multiplex(Level::Two, 0, &mut line, &[0b10_0001], &[0; 104])?;
/// let sent = line;
///
/// line[0] ^= 0xC0; // two alignment digits
/// line[26] ^= 0x08; // place 212: a control digit of tributary 1, which is stuffed
/// line[80] ^= 0x80; // place 640: its stuffing digit
/// line[1] ^= 0x10; // place 11: the national digit
/// let repaired = repair(Level::Two, 0, true, &mut line)?;
/// assert_eq!((repaired.word, repaired.control[0], repaired.stuffing[0]), (2, 1, 1));
/// assert_eq!((repaired.national, repaired.all()), (1, 5));
/// assert_eq!(line, sent);
/// # Ok(())
/// # }
/// ```
pub fn repair(
    level: Level,
    earlier: u8,
    national: bool,
    line: &mut [u8],
) -> Result<Repaired, Refusal> {
    let mut answer = [0; 10];
    // Sound: the pointer comes with the length of its slice, which is borrowed exclusively.
    let number = unsafe {
        raw::spritbobbin_repair(
            level.number(),
            u64::from(earlier),
            u64::from(national),
            line.as_mut_ptr(),
            line.len(),
            &mut answer,
        )
    };
    let [word, a, b, c, d, e, f, g, h, national] = answer.map(count);
    match number {
        0 => Ok(Repaired { word, control: [a, b, c, d], stuffing: [e, f, g, h], national }),
        1 => Err(Refusal::Level { number: level.number() }),
        2 => Err(Refusal::Line { level, bytes: line.len() }),
        5 => Err(Refusal::Earlier { level, earlier }),
        _ => Err(Refusal::Unknown { number }),
    }
}

/// Repairs the line of a capture in place. Level, length and label of the file stay.
///
/// # Errors
///
/// Those of [`read_capture`], then [`Refusal::Earlier`]. The file is then as it was.
///
/// # Examples
///
/// ```
/// use spritbobbin::{repair_capture, write_capture, Level};
///
/// # fn main() -> Result<(), spritbobbin::Refusal> {
/// let mut file = [0; 113];
/// write_capture(Level::Two, &[0; 106], None, &mut file)?; // no word at all
/// assert_eq!(repair_capture(0, false, &mut file)?.word, 5);
/// assert_eq!(file[7], 0xF4);
/// # Ok(())
/// # }
/// ```
pub fn repair_capture(earlier: u8, national: bool, file: &mut [u8]) -> Result<Repaired, Refusal> {
    let capture = read_capture(file)?;
    let (level, bytes) = (capture.level, capture.line.len());
    // A file without a label ends with its line, so this is where a line begins.
    let line = capture_bytes(0, None);
    repair(level, earlier, national, &mut file[line..line + bytes])
}
