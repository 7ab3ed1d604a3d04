//! A rack of lines: up to 64 receivers in one list.

use core::iter::FusedIterator;
use core::slice::Chunks;

use crate::level::MOST_BYTES;
use crate::raw::{self, count, Record, STORE};
use crate::receiver::{Frame, Mode, State, Taken};
use crate::{Level, Refusal};

/// The most lines of a rack.
pub const MOST_LINES: usize = 64;

/// Up to 64 lines, each with a receiver of its own, kept in one list.
///
/// A line answers as a [`Receiver`](crate::Receiver) alone that gets its own calls, in whatever
/// order the lines are fed.
///
/// ```
/// use spritbobbin::{Level, Rack};
///
/// # fn main() -> Result<(), spritbobbin::Refusal> {
/// let mut frame = [0; 106];
/// frame[0] = 0xF4;
/// let stream = frame.repeat(5);
///
/// let mut rack = Rack::new(&[Level::Two, Level::Four])?;
/// let taken = rack.take(0, &stream, 0, 8 * stream.len())?;
/// assert_eq!(taken.digits, 3 * 848);
/// assert_eq!(taken.frame.unwrap().bytes(), frame);
/// assert_eq!(rack.aligned(), 1);
///
/// rack.reset(0, Level::Three)?;
/// assert_eq!(rack.aligned(), 0);
/// # Ok(())
/// # }
/// ```
#[derive(Clone, Debug, PartialEq, Eq)]
pub struct Rack {
    /// Each line's record, and the level of its last reset. What is past the last line is idle.
    records: [Record; MOST_LINES],
    levels: [Level; MOST_LINES],
    lines: usize,
}

/// The frames that the bytes of a line's stream complete: see [`Rack::feed`].
#[derive(Debug)]
#[must_use = "frames are handed out as the iterator is walked, and lost if it is dropped"]
pub struct RackFrames<'a> {
    rack: &'a mut Rack,
    line: usize,
    /// The pieces not yet begun; the piece in hand, and its first digit not yet taken.
    pieces: Chunks<'a, u8>,
    piece: &'a [u8],
    first: usize,
}

const IDLE: Record = Record { state: [0; 9], frame: [0; STORE] };

impl Rack {
    /// A rack of fresh lines, of these levels; line 0 first.
    ///
    /// # Errors
    ///
    /// [`Refusal::Rack`] if there are more than 64.
    pub fn new(levels: &[Level]) -> Result<Rack, Refusal> {
        if levels.len() > MOST_LINES {
            return Err(Refusal::Rack { lines: levels.len() });
        }
        let lines = levels.len();
        let mut rack =
            Rack { records: [IDLE; MOST_LINES], levels: [Level::Two; MOST_LINES], lines };
        for (line, level) in levels.iter().enumerate() {
            rack.reset(line, *level)?;
        }
        Ok(rack)
    }

    /// How many lines it has.
    pub fn len(&self) -> usize {
        self.lines
    }

    /// Whether it has none.
    pub fn is_empty(&self) -> bool {
        self.lines == 0
    }

    /// Takes digits of a piece on a line, `count` of them from digit `first` on, up to the one that
    /// completes a frame, as [`Receiver::take`](crate::Receiver::take) does.
    ///
    /// # Errors
    ///
    /// [`Refusal::RackLine`], then [`Refusal::Slice`], then [`Refusal::Digits`]. Every line is then
    /// as it was.
    pub fn take(
        &mut self,
        line: usize,
        piece: &[u8],
        first: usize,
        count: usize,
    ) -> Result<Taken, Refusal> {
        let mut answer = [0; 4];
        // Sound: each pointer comes with the number of what it points to, the records have the
        // library's own layout, and what may be written is borrowed exclusively.
        let number = unsafe {
            raw::spritbobbin_rack_feed(
                self.records.as_mut_ptr(),
                self.lines,
                line as u64,
                piece.as_ptr(),
                piece.len(),
                first as u64,
                count as u64,
                &mut answer,
            )
        };
        match number {
            0 => self.taken(line, answer),
            // The rack has at most 64 lines, so 2 is of the slice.
            2 => Err(Refusal::Slice { bytes: piece.len() }),
            6 => Err(Refusal::State),
            7 => Err(Refusal::Digits { first, count, bytes: piece.len() }),
            8 => Err(Refusal::RackLine { line, lines: self.len() }),
            _ => Err(Refusal::Unknown { number }),
        }
    }

    /// Takes the next bytes of a line's stream and hands out the frames that they complete, as
    /// [`Receiver::feed`](crate::Receiver::feed) does. For streams that are cut within a byte there
    /// is [`take`](Self::take).
    ///
    /// # Errors
    ///
    /// [`Refusal::RackLine`].
    pub fn feed<'a>(&'a mut self, line: usize, bytes: &'a [u8]) -> Result<RackFrames<'a>, Refusal> {
        // A piece of no digits changes nothing, and a wrong line is refused.
        self.take(line, &[], 0, 0)?;
        Ok(RackFrames { rack: self, line, pieces: bytes.chunks(MOST_BYTES), piece: &[], first: 0 })
    }

    /// Makes a line fresh, of a level.
    ///
    /// # Errors
    ///
    /// [`Refusal::RackLine`].
    pub fn reset(&mut self, line: usize, level: Level) -> Result<(), Refusal> {
        let (records, lines) = (self.records.as_mut_ptr(), self.lines);
        // Sound as above.
        let number =
            unsafe { raw::spritbobbin_rack_reset(records, lines, line as u64, level.number()) };
        match (number, self.levels.get_mut(line)) {
            (0, Some(of_line)) => {
                *of_line = level;
                Ok(())
            }
            (8, _) => Err(Refusal::RackLine { line, lines }),
            _ => Err(Refusal::Unknown { number }),
        }
    }

    /// How many lines are aligned.
    pub fn aligned(&self) -> usize {
        let mut answer = [0];
        // Sound as above. It refuses only a list of over 64 lines, and then counts none.
        unsafe { raw::spritbobbin_rack_aligned(self.records.as_ptr(), self.lines, &mut answer) };
        count(answer[0])
    }

    /// What a line is doing, or none where there is no such line.
    pub fn mode(&self, line: usize) -> Option<Mode> {
        self.record(line).map(|record| Mode::of_number(record.state[3]))
    }

    /// Whether alarm indication stands on a line, or none where there is no such line.
    pub fn has_alarm(&self, line: usize) -> Option<bool> {
        self.record(line).map(|record| record.state[8] == 1)
    }

    /// A line's state, or none where there is no such line.
    pub fn state(&self, line: usize) -> Option<State> {
        let (record, level) = (self.record(line)?, *self.levels.get(line)?);
        Some(State::of(level, &record.state, &record.frame))
    }

    fn record(&self, line: usize) -> Option<&Record> {
        self.records.get(..self.lines)?.get(line)
    }

    fn taken(&self, line: usize, answer: [u64; 4]) -> Result<Taken, Refusal> {
        match (self.record(line), self.levels.get(line)) {
            (Some(record), Some(level)) => {
                Ok(Taken::of(answer, || Frame::of(*level, &record.frame)))
            }
            _ => Err(Refusal::RackLine { line, lines: self.lines }),
        }
    }
}

impl Iterator for RackFrames<'_> {
    type Item = Frame;

    fn next(&mut self) -> Option<Frame> {
        loop {
            let left = (8 * self.piece.len()).saturating_sub(self.first);
            // Never refused: the line is there, the state came from the library, and the digits are
            // the piece's own.
            let taken = self.rack.take(self.line, self.piece, self.first, left).ok()?;
            self.first = self.first.saturating_add(taken.digits);
            if taken.frame.is_some() {
                return taken.frame;
            }
            // At the end nothing is left in hand, so that a further step takes nothing again.
            (self.piece, self.first) = (&[], 0);
            self.piece = self.pieces.next()?;
        }
    }
}

impl FusedIterator for RackFrames<'_> {}

impl Drop for RackFrames<'_> {
    fn drop(&mut self) {
        self.for_each(drop);
    }
}
