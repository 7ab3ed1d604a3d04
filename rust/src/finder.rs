//! Finding the frames of a 2048 kbit/s line.

use core::iter::FusedIterator;
use core::slice::Chunks;

use crate::level::MOST_BYTES;
use crate::raw::{self, count};
use crate::Refusal;

/// Finds the frames of a 2048 kbit/s line in a stream of digits, which may come in pieces of any
/// size.
///
/// Frames are found after a good word (byte 0 of even frames ends in 0011011), a second digit of
/// 1 in byte 0 of the next frame, and a good word after that; they are lost after three wrong
/// words in a row.
///
/// ```
/// use spritbobbin::{Finder, Turn};
///
/// let mut pair = [0xFF; 64]; // two frames of 32 bytes
/// pair[0] = 0b1001_1011; // the word
/// let stream = pair.repeat(3);
///
/// let mut finder = Finder::new();
/// let turns: Vec<Turn> = finder.feed(&stream).collect();
/// // The second word ends with the first byte of the second pair.
/// assert_eq!(turns, [Turn::Found { digits: 520 }]);
/// assert!(finder.is_aligned());
/// ```
#[derive(Clone, Debug, PartialEq, Eq)]
pub struct Finder {
    numbers: [u64; 4],
}

/// What a finder is doing.
#[derive(Clone, Copy, Debug, PartialEq, Eq, Hash)]
pub enum FinderMode {
    /// Looking for a word at every digit.
    Hunting,
    /// A word was found; the second digit of the next frame's byte 0 is awaited.
    WordFound,
    /// That digit was 1; the next word is awaited.
    SecondSeen,
    /// That word was good.
    Aligned {
        /// How many words in a row were wrong since, 0 to 2.
        missed: u8,
    },
}

/// A finder's state, to be looked at, or saved and resumed from.
#[derive(Clone, Copy, Debug, PartialEq, Eq)]
pub struct FinderState {
    /// The last seven digits as a number: the newest digit is worth 1.
    pub window: u64,
    /// The digits since the finder was made, stopping at 7.
    pub seen: u64,
    /// What it is doing.
    pub mode: FinderMode,
    /// The digits since the word's last one; 0 while hunting.
    pub place: u64,
}

/// What one call took of a piece.
#[derive(Clone, Copy, Debug, PartialEq, Eq)]
pub struct FinderTaken {
    /// How many digits.
    pub digits: usize,
    /// Whether it is aligned at their end.
    pub aligned: bool,
}

/// Alignment found or lost, after so many digits of the bytes that were fed.
#[derive(Clone, Copy, Debug, PartialEq, Eq)]
pub enum Turn {
    /// Found at the last of them, which is the last digit of a word.
    Found {
        /// How many digits.
        digits: usize,
    },
    /// Lost at the last of them, where the third wrong word in a row ended.
    Lost {
        /// How many digits.
        digits: usize,
    },
}

impl Default for Finder {
    fn default() -> Finder {
        Finder::new()
    }
}

impl Finder {
    /// A fresh finder, which hunts.
    pub fn new() -> Finder {
        let mut numbers = [0; 4];
        // Sound: the array has the length that the library writes.
        unsafe { raw::spritbobbin_finder_fresh(&mut numbers) };
        Finder { numbers }
    }

    /// A finder that goes on from a state.
    ///
    /// # Errors
    ///
    /// [`Refusal::State`] if the state is not valid.
    ///
    /// ```
    /// use spritbobbin::{Finder, Refusal};
    ///
    /// # fn main() -> Result<(), Refusal> {
    /// let mut state = Finder::new().state();
    /// assert_eq!(Finder::resume(&state)?, Finder::new());
    /// state.place = 1; // hunting has no place
    /// assert_eq!(Finder::resume(&state), Err(Refusal::State));
    /// # Ok(())
    /// # }
    /// ```
    pub fn resume(state: &FinderState) -> Result<Finder, Refusal> {
        let FinderState { window, seen, mode, place } = *state;
        let mut finder = Finder { numbers: [window, seen, mode.number(), place] };
        // A piece of no digits changes nothing, and the state is judged all the same.
        finder.take(&[], 0, 0)?;
        Ok(finder)
    }

    /// What it is doing.
    pub fn mode(&self) -> FinderMode {
        FinderMode::of_number(self.numbers[2])
    }

    /// Whether it has found where frames begin.
    pub fn is_aligned(&self) -> bool {
        matches!(self.mode(), FinderMode::Aligned { .. })
    }

    /// Its state.
    pub fn state(&self) -> FinderState {
        let [window, seen, mode, place] = self.numbers;
        FinderState { window, seen, mode: FinderMode::of_number(mode), place }
    }

    /// Takes the stream's next bytes and says where in them alignment is found and lost.
    ///
    /// Digits are taken as the iterator is walked. If it is dropped before its end the rest is
    /// taken too: the stream has no gap.
    pub fn feed<'a>(&'a mut self, bytes: &'a [u8]) -> Turns<'a> {
        Turns { finder: self, pieces: bytes.chunks(MOST_BYTES), piece: &[], first: 0, before: 0 }
    }

    /// Takes digits of a piece, `count` of them from digit `first` on, up to the one at which
    /// alignment is found or lost. For streams that are cut within a byte; others are easier to
    /// [`feed`](Self::feed).
    ///
    /// # Errors
    ///
    /// [`Refusal::Slice`], then [`Refusal::Digits`]. The finder is then as it was.
    ///
    /// ```
    /// use spritbobbin::{Finder, FinderMode};
    ///
    /// # fn main() -> Result<(), spritbobbin::Refusal> {
    /// let mut finder = Finder::new();
    /// let taken = finder.take(&[0b1001_1011, 0xFF], 1, 7)?; // the word
    /// assert_eq!((taken.digits, taken.aligned), (7, false));
    /// assert_eq!(finder.mode(), FinderMode::WordFound);
    /// # Ok(())
    /// # }
    /// ```
    pub fn take(
        &mut self,
        piece: &[u8],
        first: usize,
        count: usize,
    ) -> Result<FinderTaken, Refusal> {
        let mut answer = [0; 2];
        // Sound: the arrays have the lengths that the library reads and writes, the pointer comes
        // with its slice's length, and what may be written is borrowed exclusively.
        let number = unsafe {
            raw::spritbobbin_finder_feed(
                &mut self.numbers,
                piece.as_ptr(),
                piece.len(),
                first as u64,
                count as u64,
                &mut answer,
            )
        };
        match number {
            0 => Ok(FinderTaken { digits: self::count(answer[0]), aligned: answer[1] == 1 }),
            2 => Err(Refusal::Slice { bytes: piece.len() }),
            6 => Err(Refusal::State),
            7 => Err(Refusal::Digits { first, count, bytes: piece.len() }),
            _ => Err(Refusal::Unknown { number }),
        }
    }
}

impl FinderMode {
    fn of_number(number: u64) -> FinderMode {
        match number {
            0 => FinderMode::Hunting,
            1 => FinderMode::WordFound,
            2 => FinderMode::SecondSeen,
            aligned => FinderMode::Aligned { missed: (aligned - 3) as u8 },
        }
    }

    fn number(self) -> u64 {
        match self {
            FinderMode::Hunting => 0,
            FinderMode::WordFound => 1,
            FinderMode::SecondSeen => 2,
            FinderMode::Aligned { missed } => 3 + u64::from(missed),
        }
    }
}

/// Where bytes of a stream find and lose alignment: see [`Finder::feed`].
#[derive(Debug)]
#[must_use = "digits are taken as the iterator is walked, and turns lost if it is dropped"]
pub struct Turns<'a> {
    finder: &'a mut Finder,
    /// The pieces not yet begun.
    pieces: Chunks<'a, u8>,
    /// The piece in hand, its first digit not yet taken, and the digits of the pieces before it.
    piece: &'a [u8],
    first: usize,
    before: usize,
}

impl Iterator for Turns<'_> {
    type Item = Turn;

    fn next(&mut self) -> Option<Turn> {
        loop {
            let held = 8 * self.piece.len();
            let was = self.finder.is_aligned();
            // Never refused: the state came from the library, and the digits are the piece's own.
            let taken = self.finder.take(self.piece, self.first, held - self.first).ok()?;
            self.first += taken.digits;
            let digits = self.before + self.first;
            match (was, taken.aligned) {
                (false, true) => return Some(Turn::Found { digits }),
                (true, false) => return Some(Turn::Lost { digits }),
                _ => {}
            }
            // At the end nothing is left in hand, so that a further step takes nothing again.
            (self.before, self.piece, self.first) = (digits, &[], 0);
            self.piece = self.pieces.next()?;
        }
    }
}

impl FusedIterator for Turns<'_> {}

impl Drop for Turns<'_> {
    fn drop(&mut self) {
        self.for_each(drop);
    }
}
