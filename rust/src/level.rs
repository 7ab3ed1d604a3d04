//! The five levels and the sizes that a caller needs.

use core::fmt;

use crate::Refusal;

/// The most frames in a line.
pub const MOST_FRAMES: usize = 64;

/// The most bytes in a piece of a stream, or in a line that is read digit by digit.
pub const MOST_BYTES: usize = 65_536;

/// A multiplex level.
///
/// ```
/// use spritbobbin::Level;
///
/// assert_eq!(Level::try_from(4), Ok(Level::Four));
/// assert_eq!(Level::Four.frame_bytes(), 366);
/// let refusal = Level::try_from(5).unwrap_err();
/// assert!(refusal.to_string().starts_with("there is no level 5"));
/// ```
#[derive(Clone, Copy, Debug, PartialEq, Eq, PartialOrd, Ord, Hash)]
#[non_exhaustive]
pub enum Level {
    /// 8448 kbit/s (G.742).
    Two,
    /// 34368 kbit/s (G.751).
    Three,
    /// 139264 kbit/s (G.751).
    Four,
    /// 8448 kbit/s with positive/zero/negative justification.
    Twelve,
    /// 139264 kbit/s with positive/zero/negative justification.
    Fourteen,
}

/// What differs between the levels.
struct Row {
    number: u64,
    kilobits: u32,
    frame_digits: usize,
    word_digits: usize,
    tributary_digits: usize,
    room_digits: usize,
    note_bits: u8,
    national_bits: u8,
}

#[rustfmt::skip]
const TABLE: [Row; 5] = [
    Row { number:  2, kilobits:   8_448, frame_digits:   848, word_digits: 10, tributary_digits: 206, room_digits: 206, note_bits: 0x3F, national_bits: 0x20 },
    Row { number:  3, kilobits:  34_368, frame_digits: 1_536, word_digits: 10, tributary_digits: 378, room_digits: 378, note_bits: 0x3F, national_bits: 0x20 },
    Row { number:  4, kilobits: 139_264, frame_digits: 2_928, word_digits: 12, tributary_digits: 723, room_digits: 723, note_bits: 0xFF, national_bits: 0xE0 },
    Row { number: 12, kilobits:   8_448, frame_digits: 1_056, word_digits:  8, tributary_digits: 256, room_digits: 257, note_bits: 0x0F, national_bits: 0x00 },
    Row { number: 14, kilobits: 139_264, frame_digits: 2_176, word_digits: 10, tributary_digits: 537, room_digits: 538, note_bits: 0x0F, national_bits: 0x00 },
];

impl Level {
    /// Every level, in the order of their numbers.
    pub const ALL: [Level; 5] =
        [Level::Two, Level::Three, Level::Four, Level::Twelve, Level::Fourteen];

    fn row(self) -> &'static Row {
        // The table's rows stand in the order of the cases.
        &TABLE[self as usize]
    }

    /// The level's number: 2, 3, 4, 12 or 14.
    pub fn number(self) -> u64 {
        self.row().number
    }

    /// The line's rate in kbit/s.
    pub fn kilobits(self) -> u32 {
        self.row().kilobits
    }

    /// The digits of a frame.
    pub fn frame_digits(self) -> usize {
        self.row().frame_digits
    }

    /// The bytes of a frame.
    pub fn frame_bytes(self) -> usize {
        self.frame_digits() / 8
    }

    /// The digits of the alignment word.
    pub fn word_digits(self) -> usize {
        self.row().word_digits
    }

    /// The digits of each tributary in a frame where it is not stuffed and no negative place carries
    /// a digit of it.
    pub fn tributary_digits(self) -> usize {
        self.row().tributary_digits
    }

    /// The most digits of a tributary in a frame, for which a quarter must have room.
    ///
    /// ```
    /// use spritbobbin::Level;
    ///
    /// assert_eq!((Level::Two.tributary_digits(), Level::Two.room_digits()), (206, 206));
    /// assert_eq!((Level::Twelve.tributary_digits(), Level::Twelve.room_digits()), (256, 257));
    /// ```
    pub fn room_digits(self) -> usize {
        self.row().room_digits
    }

    /// The bits that a note of this level may have set.
    pub fn note_bits(self) -> u8 {
        self.row().note_bits
    }

    /// The bits of the national digits, which every note that is sent must have set: bit 5, at level 4
    /// bits 5 to 7, and none at levels 12 and 14.
    ///
    /// ```
    /// use spritbobbin::{multiplex, Level};
    ///
    /// let level = Level::Four;
    /// let note = 0b0001 | level.national_bits(); // tributary 1 is stuffed
    /// assert!(multiplex(level, 0, &mut [0; 366], &[note], &[0; 364]).is_ok());
    /// ```
    pub fn national_bits(self) -> u8 {
        self.row().national_bits
    }

    /// Whether a frame acts on the vote of the frame before it too, so that multiplexing and
    /// extraction look at the earlier vote: levels 12 and 14.
    pub fn looks_at_earlier(self) -> bool {
        // A frame can have a digit more where there are negative places, and these go by two votes.
        self.room_digits() > self.tributary_digits()
    }

    /// Whether an earlier vote is refused: where one is looked at, those over 15.
    pub(crate) fn refuses_earlier(self, earlier: u8) -> bool {
        self.looks_at_earlier() && earlier > 15
    }

    /// The fewest bytes of a buffer's quarter for so many frames, stuffed or not.
    ///
    /// ```
    /// assert_eq!(spritbobbin::Level::Two.quarter_bytes(1), 26);
    /// assert_eq!(spritbobbin::Level::Twelve.quarter_bytes(1), 33);
    /// ```
    pub fn quarter_bytes(self, frames: usize) -> usize {
        let digits = frames.saturating_mul(self.room_digits());
        digits / 8 + usize::from(digits % 8 != 0)
    }

    /// The fewest bytes of a buffer for so many frames: four quarters.
    ///
    /// ```
    /// assert_eq!(spritbobbin::Level::Two.buffer_bytes(1), 104);
    /// ```
    pub fn buffer_bytes(self, frames: usize) -> usize {
        self.quarter_bytes(frames).saturating_mul(4)
    }
}

impl TryFrom<u64> for Level {
    type Error = Refusal;

    fn try_from(number: u64) -> Result<Level, Refusal> {
        let level = Level::ALL.into_iter().find(|level| level.number() == number);
        level.ok_or(Refusal::Level { number })
    }
}

impl fmt::Display for Level {
    fn fmt(&self, out: &mut fmt::Formatter<'_>) -> fmt::Result {
        write!(out, "level {}", self.number())
    }
}

#[cfg(test)]
mod tests {
    use super::*;
    use crate::raw;

    /// The library's own refusal of a level.
    fn refused(number: u64) -> bool {
        // Sound: the arrays have the lengths that the library writes.
        unsafe { raw::spritbobbin_receiver_fresh(number, &mut [0; 9], &mut [0; raw::STORE]) != 0 }
    }

    #[test]
    fn the_library_has_the_same_levels() {
        for number in (0..=300).chain([(1 << 32) + 2, (1 << 32) + 4, u64::MAX]) {
            assert_eq!(Level::try_from(number).is_err(), refused(number), "level {number}");
        }
        for level in Level::ALL {
            assert_eq!(Level::try_from(level.number()), Ok(level));
        }
    }

    #[test]
    fn no_number_of_frames_is_too_large_to_ask_about() {
        for level in Level::ALL {
            assert!(level.buffer_bytes(usize::MAX) > level.buffer_bytes(MOST_FRAMES));
        }
    }
}
